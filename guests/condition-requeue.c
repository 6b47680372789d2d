// A condition whose waiters are moved to the lock when all are signalled: one is woken, and each that gives the lock wakes
// the next.
#include "locks.h"

enum { THREADS = 9, ROUNDS = 3 };

static struct thread threads[THREADS];
static u32 lock, condition;
static volatile u32 round_number, inside, wrong, passed;

// The lock is taken as one with waiters, since some may have been moved to it.
static void wait_for_all_signal(void)
{
    u32 seen = load(&condition);
    give(&lock);
    wait_at(&condition, seen);
    while (swap(&lock, 2) != 0)
        wait_at(&lock, 2);
}

static i64 work(u64 n)
{
    for (u32 round = 1; round <= ROUNDS; round++) {
        take(&lock);
        while (round_number < round)
            wait_for_all_signal();
        if (++inside != 1)
            wrong++;
        passed++;
        inside--;
        give(&lock);
    }
    return 0;
}

int guest(int count, char **arguments)
{
    for (u64 n = 0; n < THREADS; n++)
        start(&threads[n], work, n);
    for (u32 round = 1; round <= ROUNDS; round++) {
        u32 value;
        // In each round but the first, those who passed come back one by one.
        await_waiters(&condition, THREADS);
        take(&lock);
        round_number = round;
        value = fetch_add(&condition, 1) + 1;
        swap(&lock, 2);
        answer("woken and moved", futex(&condition, FUTEX_CMP_REQUEUE | FUTEX_PRIVATE, 1, ALL, &lock, value));
        line("waiters", waiters(&condition));
        give(&lock);
    }
    for (u64 n = 0; n < THREADS; n++)
        join(&threads[n]);
    line("passed", passed);
    line("wrong", wrong);
    line("waiters at the lock", waiters(&lock));
    return 0;
}
