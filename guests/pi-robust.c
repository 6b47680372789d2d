// The end of a thread that holds a lock that names its owner and stands in its robust list: the first that waits has it
// then, and the word tells of the death. Bit 0 of a pointer in the list tells of such a lock.
#include "pi.h"

enum { HEIRS = 3 };

static struct thread owner, heirs[HEIRS];
static struct lock held, alone, other, pending_lock;
static struct head head;
static u32 is_ready, may_end, first_died, later_died;
static volatile u64 got;
static volatile i64 answers[HEIRS];

// The pointer to a lock that names its owner.
static void *inheriting(struct lock *lock) { return (u8 *)lock + 1; }

static i64 own(u64 n)
{
    u32 tid = gettid();
    if (set_robust_list(&head, HEAD_SIZE) != 0)
        exit_group(1);
    if (lock_pi(&held.word, 0) != 0 || lock_pi(&alone.word, 0) != 0 || lock_pi(&pending_lock.word, 0) != 0)
        exit_group(1);
    other.word = 0x3ffffffe;
    truth("the words are its own", held.word == tid && alone.word == tid && pending_lock.word == tid);
    store(&is_ready, 1);
    await(&may_end, 1);
    return 0;
}

static i64 inherit(u64 n)
{
    u32 word, tid = gettid();
    answers[n] = lock_pi(&held.word, 0);
    word = load(&held.word);
    if ((word & OWNER) != tid)
        exit_group(2);
    fetch_add(got == 0 ? &first_died : &later_died, (word & OWNER_DIED) != 0);
    got++;
    // Who has it next is told nothing of the death, once it is known.
    if (unlock_pi(&held.word) != 0)
        exit_group(3);
    return 0;
}

int guest(int count, char **arguments)
{
    head.next = inheriting(&held);
    held.next = inheriting(&alone);
    alone.next = inheriting(&other);
    other.next = &head;
    head.offset = WORD_OFFSET;
    head.pending = inheriting(&pending_lock);
    start(&owner, own, 0);
    await(&is_ready, 1);
    start(&heirs[0], inherit, 0);
    await_waiter(&held.word);
    for (u64 n = 1; n < HEIRS; n++)
        start(&heirs[n], inherit, n);
    answer("while it lives", try_lock_pi(&held.word));
    store(&may_end, 1);
    join(&owner);
    for (u64 n = 0; n < HEIRS; n++)
        join(&heirs[n]);
    for (u64 n = 0; n < HEIRS; n++)
        answer("a lock", answers[n]);
    line("the first is told of the death", first_died);
    line("the others are told", later_died);
    hex_line("held", held.word);
    hex_line("nobody waits", alone.word);
    hex_line("of another", other.word);
    hex_line("pending", pending_lock.word);
    answer("lock of what nobody waits for", lock_pi(&alone.word, 0));
    hex_line("its word", alone.word ^ (u32)gettid());
    answer("unlock", unlock_pi(&alone.word));
    hex_line("its word", alone.word);
    answer("try of the pending one", try_lock_pi(&pending_lock.word));
    hex_line("its word", pending_lock.word ^ (u32)gettid());
    return 0;
}
