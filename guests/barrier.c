// A barrier over a futex: sixteen threads, none of which begins a round before all have ended the one before.
#include "threads.h"

enum { THREADS = 16, ROUNDS = 4 };

static struct thread threads[THREADS];
static u32 there, round_number, wrong, lasts;
static u32 steps[THREADS];

static void wait_for_all(void)
{
    u32 round = load(&round_number);
    if (fetch_add(&there, 1) == THREADS - 1) {
        store(&there, 0);
        fetch_add(&round_number, 1);
        fetch_add(&lasts, 1);
        wake_at(&round_number, ALL);
    }
    while (load(&round_number) == round)
        wait_at(&round_number, round);
}

static i64 work(u64 n)
{
    for (u32 round = 1; round <= ROUNDS; round++) {
        store(&steps[n], round);
        wait_for_all();
        for (u64 other = 0; other < THREADS; other++)
            if (load(&steps[other]) != round)
                fetch_add(&wrong, 1);
        wait_for_all();
    }
    return 0;
}

int guest(int count, char **arguments)
{
    for (u64 n = 0; n < THREADS; n++)
        start(&threads[n], work, n);
    for (u64 n = 0; n < THREADS; n++)
        join(&threads[n]);
    line("rounds", round_number);
    line("threads that were last", lasts);
    line("steps that were seen too early or too late", wrong);
    return 0;
}
