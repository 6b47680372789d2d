// Threads that take a lock that names its owner, in three ways: by the system alone, by an exchange first, and by trying.
#include "pi.h"

#ifndef THREADS
#define THREADS 4
#define ROUNDS 60
#endif

static struct thread threads[THREADS];
static u32 lock, wrong;
static volatile u64 count, sum, by_trying;

static i64 work(u64 n)
{
    u32 tid = gettid();
    for (u64 round = 0; round < ROUNDS; round++) {
        u64 seen, tried = 0;
        if (round % 3 == 0) {
            if (lock_pi(&lock, 0) != 0)
                fetch_add(&wrong, 1);
        } else if (round % 3 == 1)
            take_pi(&lock, tid);
        else {
            while (try_lock_pi(&lock) != 0)
                sched_yield();
            tried = 1;
        }
        if ((load(&lock) & OWNER) != tid)
            fetch_add(&wrong, 1);
        seen = count;
        sum += n + 1;
        by_trying += tried;
        if (round % 4 == 0)
            sched_yield();
        count = seen + 1;
        give_pi(&lock, tid);
    }
    return 0;
}

int guest(int arguments_count, char **arguments)
{
    for (u64 n = 0; n < THREADS; n++)
        start(&threads[n], work, n);
    for (u64 n = 0; n < THREADS; n++)
        join(&threads[n]);
    line("times", count);
    line("by trying", by_trying);
    line("the sum", sum);
    line("wrong", wrong);
    hex_line("the word", lock);
    return 0;
}
