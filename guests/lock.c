// A lock over a futex: eight threads add to plain numbers, never two at once.
#include "locks.h"

enum { THREADS = 8, TIMES = 40 };

static struct thread threads[THREADS];
static u32 lock;
static volatile u32 inside, most;
static volatile u64 sum, times[THREADS];

static i64 work(u64 n)
{
    for (u64 i = 0; i < TIMES; i++) {
        take(&lock);
        if (++inside > most)
            most = inside;
        if (i % 8 == n)
            sched_yield();
        sum += n * i;
        times[n]++;
        inside--;
        give(&lock);
    }
    return 0;
}

int guest(int count, char **arguments)
{
    u64 all = 0;
    for (u64 n = 0; n < THREADS; n++)
        start(&threads[n], work, n);
    for (u64 n = 0; n < THREADS; n++)
        join(&threads[n]);
    for (u64 n = 0; n < THREADS; n++)
        all += times[n];
    line("the sum", sum);
    line("the times", all);
    line("most threads at once", most);
    line("waiters that are left", waiters(&lock));
    return 0;
}
