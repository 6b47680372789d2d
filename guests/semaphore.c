// A semaphore over a futex: of ten threads at most three are inside at once.
#include "threads.h"

enum { THREADS = 10, TIMES = 12, PLACES = 3 };

static struct thread threads[THREADS];
static u32 places = PLACES, inside, too_many, all;

static void take_place(void)
{
    for (;;) {
        u32 seen = load(&places);
        if (seen == 0)
            wait_at(&places, 0);
        else if (compare_swap(&places, seen, seen - 1) == seen)
            return;
    }
}

static void give_place(void)
{
    fetch_add(&places, 1);
    wake_at(&places, 1);
}

static i64 work(u64 n)
{
    for (u64 i = 0; i < TIMES; i++) {
        take_place();
        if (fetch_add(&inside, 1) >= PLACES)
            fetch_add(&too_many, 1);
        if ((i + n) % 3 == 0)
            sched_yield();
        fetch_add(&all, 1);
        fetch_add(&inside, -1);
        give_place();
    }
    return 0;
}

int guest(int count, char **arguments)
{
    for (u64 n = 0; n < THREADS; n++)
        start(&threads[n], work, n);
    for (u64 n = 0; n < THREADS; n++)
        join(&threads[n]);
    line("times inside", all);
    line("times with too many", too_many);
    line("free places", places);
    line("threads inside", inside);
    return 0;
}
