// Thirty-one threads beside the first, all at once: each starts the next, waits until all are there, and adds
// its number.
#include "threads.h"

enum { THREADS = 31 };

static struct thread threads[THREADS];
static u32 there, sum;

static i64 work(u64 n)
{
    if (n + 1 < THREADS)
        start(&threads[n + 1], work, n + 1);
    if (fetch_add(&there, 1) == THREADS - 1)
        wake_at(&there, ALL);
    for (u32 seen; (seen = load(&there)) < THREADS;)
        wait_at(&there, seen);
    fetch_add(&sum, n);
    return 0;
}

int guest(int count, char **arguments)
{
    start(&threads[0], work, 0);
    // A thread's word is set before the one that starts it ends.
    for (u64 n = 0; n < THREADS; n++)
        join(&threads[n]);
    line("threads that were there", there);
    line("the sum of their numbers", sum);
    return 0;
}
