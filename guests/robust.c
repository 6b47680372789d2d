// The end of a thread that holds locks of its robust list: its words are marked, and one waiter of each is woken. Words of
// others stay.
#include "robusts.h"

static struct thread owner, waiters_of[5];
static struct lock held, awaited, of_other, odd, pending_lock;
static struct head head;
static u32 is_ready, may_end;
static volatile i64 tid;

static i64 own(u64 n)
{
    struct head *told = (struct head *)1;
    u64 size = 0;
    answer("the list of a new thread", get_robust_list(0, &told, &size));
    line("its head", (i64)told);
    tid = gettid();
    answer("set_robust_list of another size", set_robust_list(&head, 23));
    // Without a list nobody would be woken.
    if (set_robust_list(&head, HEAD_SIZE) != 0)
        exit_group(1);
    held.word = tid;
    awaited.word = tid | WAITERS;
    of_other.word = 12345 | WAITERS;
    odd.word = tid | WAITERS;
    pending_lock.word = tid | WAITERS;
    store(&is_ready, 1);
    await(&may_end, 1);
    return 0;
}

static void show(const char *name, struct lock *lock)
{
    text(name);
    text(": ");
    hex(lock->word & ~OWNER);
    text(lock->word & OWNER ? (lock->word & OWNER) == 12345 ? ", of the other" : ", owned" : ", of nobody");
    text(", waiters ");
    number(shared_waiters(&lock->word));
    text("\n");
}

int guest(int count, char **arguments)
{
    struct head *told = 0;
    u64 size = 0;
    head.next = &held;
    held.next = &awaited;
    awaited.next = &of_other;
    // The lowest bit marks a lock whose waiters the system doesn't wake.
    of_other.next = (u8 *)&odd + 1;
    odd.next = &head;
    head.offset = WORD_OFFSET;
    head.pending = &pending_lock;
    start(&owner, own, 0);
    await(&is_ready, 1);
    answer("the list of another thread", get_robust_list(tid, &told, &size));
    truth("it is that", told == &head);
    line("the size of its head", size);
    answer("the list of no thread", get_robust_list(OWNER, &told, &size));
    start_waiter(&waiters_of[0], &awaited.word, 1);
    start_waiter(&waiters_of[1], &awaited.word, 2);
    start_waiter(&waiters_of[2], &of_other.word, 1);
    start_waiter(&waiters_of[3], &odd.word, 1);
    start_waiter(&waiters_of[4], &pending_lock.word, 1);
    show("held, before", &held);
    show("awaited, before", &awaited);
    store(&may_end, 1);
    join(&owner);
    show("held", &held);
    show("awaited", &awaited);
    show("of another", &of_other);
    show("with the lowest bit", &odd);
    show("pending", &pending_lock);
    join(&waiters_of[0]);
    join(&waiters_of[4]);
    for (u64 n = 1; n <= 3; n++) {
        struct lock *lock = n == 1 ? &awaited : n == 2 ? &of_other : &odd;
        answer("wake", futex(&lock->word, FUTEX_WAKE, 1, 0, 0, 0));
        join(&waiters_of[n]);
    }
    return 0;
}
