// The end of a thread between giving a lock and waking its next owner: the word of the entry under way is 0, and one
// waiter is woken. A list's other entries, and those that name their owner, have no such rule.
#include "pi.h"

static struct thread owner, waiters_of[4];
static struct lock pending_lock, in_list;
static struct head head;
static u32 is_ready, may_end;
static u64 pending_bits;
static volatile i64 answers[4];

static i64 own(u64 n)
{
    head.next = &in_list;
    in_list.next = &head;
    head.offset = WORD_OFFSET;
    head.pending = (u8 *)&pending_lock + pending_bits;
    if (set_robust_list(&head, HEAD_SIZE) != 0)
        exit_group(1);
    store(&is_ready, 1);
    await(&may_end, 1);
    return 0;
}

static i64 wait_for_free(u64 n)
{
    u32 *at = n < 3 ? &pending_lock.word : &in_list.word;
    answers[n] = futex(at, FUTEX_WAIT, 0, 0, 0, 0);
    return 0;
}

static void run(const char *name, u64 bits)
{
    pending_bits = bits;
    store(&is_ready, 0);
    store(&may_end, 0);
    start(&owner, own, 0);
    await(&is_ready, 1);
    store(&may_end, 1);
    join(&owner);
    text(name);
    line(", waiters", shared_waiters(&pending_lock.word));
    line("those of the list", shared_waiters(&in_list.word));
    hex_line("the word", pending_lock.word);
}

int guest(int count, char **arguments)
{
    for (u64 n = 0; n < COUNT(waiters_of); n++) {
        start(&waiters_of[n], wait_for_free, n);
        while (shared_waiters(n < 3 ? &pending_lock.word : &in_list.word) != (n < 3 ? n + 1 : 1))
            sched_yield();
    }
    line("waiters", shared_waiters(&pending_lock.word));
    run("one has ended", 0);
    run("another has ended, whose lock names its owner", 1);
    pending_lock.word = 12345;
    run("another has ended, and the lock is another's", 0);
    pending_lock.word = 0;
    run("another has ended", 0);
    line("wake", futex(&pending_lock.word, FUTEX_WAKE, ALL, 0, 0, 0) + futex(&in_list.word, FUTEX_WAKE, ALL, 0, 0, 0));
    for (u64 n = 0; n < COUNT(waiters_of); n++) {
        join(&waiters_of[n]);
        answer("a wait", answers[n]);
    }
    return 0;
}
