// Threads that map, change, protect and give back memory at the same time, each its own pages and a part of common ones.
#include "threads.h"

enum { THREADS = 5, TIMES = 8, PAGES = 6 };

static struct thread threads[THREADS];
static u32 wrong, done;
static u64 common;

static i64 work(u64 n)
{
    u64 part = common + n * PAGES * PAGE;
    for (u64 i = 0; i < TIMES; i++) {
        u64 own = new_pages(PAGES * PAGE), sum = 0;
        for (u64 page = 0; page < PAGES; page++) {
            // New pages hold zeros, and what one thread stores the others leave.
            if (*(u64 *)(own + page * PAGE) != 0)
                fetch_add(&wrong, 1);
            *(u64 *)(own + page * PAGE) = n * 100 + page;
            *(u64 *)(part + page * PAGE + 8 * i) = i;
        }
        if (mprotect(own, 3 * PAGE, RIGHT_READ) != 0 || munmap(own + 3 * PAGE, PAGE) != 0)
            fetch_add(&wrong, 1);
        for (u64 page = 0; page < PAGES; page++)
            if (page != 3)
                sum += *(u64 *)(own + page * PAGE);
        if (sum != n * 500 + 12)
            fetch_add(&wrong, 1);
        if (mprotect(part, PAGES * PAGE, RIGHT_READ) != 0 || mprotect(part, PAGES * PAGE, RIGHT_READ | RIGHT_WRITE) != 0)
            fetch_add(&wrong, 1);
        if (i == TIMES - 1 && madvise(part + PAGE, PAGE, MADV_DONTNEED) != 0)
            fetch_add(&wrong, 1);
        munmap(own, PAGES * PAGE);
        fetch_add(&done, 1);
    }
    return 0;
}

int guest(int count, char **arguments)
{
    u64 sum = 0;
    common = new_pages(THREADS * PAGES * PAGE);
    for (u64 n = 0; n < THREADS; n++)
        start(&threads[n], work, n);
    for (u64 n = 0; n < THREADS; n++)
        join(&threads[n]);
    for (u64 page = 0; page < THREADS * PAGES; page++)
        for (u64 i = 0; i < TIMES; i++)
            sum += *(u64 *)(common + page * PAGE + 8 * i);
    line("rounds", done);
    line("wrong", wrong);
    line("the sum of the common pages", sum);
    return 0;
}
