// Threads that start, work and end, and the wait for their end by the word that is cleared then. The places of threads
// that have ended are free again.
#include "threads.h"

enum { THREADS = 8, ROUNDS = 3 };

static struct thread threads[THREADS];
static volatile u64 results[THREADS];
static volatile u32 numbers[THREADS];
static i64 process;

static i64 work(u64 n)
{
    struct thread *self = (struct thread *)thread_pointer();
    numbers[n] = self == &threads[n] && self->tid == gettid() && getpid() == process ? self->tid : 0;
    for (u64 i = 1; i <= 100; i++)
        results[n] += i * (n + 1);
    return 7;
}

int guest(int count, char **arguments)
{
    u32 before = 0;
    u64 are_right = 1, are_new = 1, are_others = 1;
    process = getpid();
    for (u64 round = 0; round < ROUNDS; round++) {
        for (u64 n = 0; n < THREADS; n++)
            start(&threads[n], work, n);
        for (u64 n = 0; n < THREADS; n++)
            join(&threads[n]);
        for (u64 n = 0; n < THREADS; n++) {
            are_right &= numbers[n] != 0;
            are_others &= numbers[n] != process;
            are_new &= numbers[n] != before;
            before = numbers[n];
        }
    }
    for (u64 n = 0; n < THREADS; n++)
        line("the result", results[n]);
    truth("each thread knew its number", are_right);
    truth("the numbers are those of no other thread", are_others && are_new);
    line("the thread pointer of the first thread", thread_pointer());

    // From last to first, and one that has ended long ago.
    for (u64 n = 0; n < 3; n++)
        start(&threads[n], work, n);
    for (u64 n = 3; n > 0; n--)
        join(&threads[n - 1]);
    join(&threads[0]);
    line("the result", results[2]);
    return 0;
}
