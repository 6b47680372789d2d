// A lock that is waited for with a deadline: those who come while it is held go away when their time has passed, and later
// ones get it.
#include "locks.h"

enum { THREADS = 6 };

static struct thread threads[THREADS];
static u32 lock, passed, too_early, got;
static volatile u64 sum;

// False: the lock was not to be had up to the deadline.
static int take_until(const struct time *deadline)
{
    if (compare_swap(&lock, 0, 1) == 0)
        return 1;
    while (swap(&lock, 2) != 0)
        if (futex(&lock, FUTEX_WAIT_BITSET | FUTEX_PRIVATE, 2, (u64)deadline, 0, -1) == -110)
            return 0;
    return 1;
}

static i64 work(u64 n)
{
    u64 end = now() + 200000 * (n + 1);
    struct time deadline = {end / 1000000000, end % 1000000000};
    if (take_until(&deadline)) {
        give(&lock);
        exit_group(1);
    }
    if (now() < end)
        fetch_add(&too_early, 1);
    fetch_add(&passed, 1);
    // Then for long.
    deadline.seconds += 100000;
    if (take_until(&deadline)) {
        sum += n + 1;
        give(&lock);
        fetch_add(&got, 1);
    }
    return 0;
}

int guest(int count, char **arguments)
{
    take(&lock);
    for (u64 n = 0; n < THREADS; n++)
        start(&threads[n], work, n);
    await(&passed, THREADS);
    await_waiters(&lock, THREADS);
    give(&lock);
    for (u64 n = 0; n < THREADS; n++)
        join(&threads[n]);
    line("deadlines that passed", passed);
    line("that passed too early", too_early);
    line("threads that got the lock", got);
    line("the sum", sum);
    line("waiters", waiters(&lock));
    return 0;
}
