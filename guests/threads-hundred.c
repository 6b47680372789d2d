// A hundred threads that live at once: when all are there, each waits for its turn at a word of its own and gives the turn
// to the next, and none ends before the last has had its turn.
#include "threads.h"

enum { THREADS = 100, AGAIN = 20 };

static struct thread threads[THREADS];
static u32 there, turns[THREADS + 1], is_over;
static volatile u64 hash = 5381;
static volatile u32 tids[THREADS];

static void give_turn(u64 n)
{
    store(&turns[n], 1);
    wake_at(&turns[n], 1);
}

static i64 work(u64 n)
{
    tids[n] = gettid();
    if (fetch_add(&there, 1) == THREADS - 1)
        give_turn(0);
    while (load(&turns[n]) == 0)
        wait_at(&turns[n], 0);
    hash = hash * 33 + n;
    give_turn(n + 1);
    while (load(&is_over) == 0)
        wait_at(&is_over, 0);
    return 0;
}

int guest(int count, char **arguments)
{
    u64 equal = 0;
    for (u64 n = 0; n < THREADS; n++)
        start(&threads[n], work, n);
    while (load(&turns[THREADS]) == 0)
        wait_at(&turns[THREADS], 0);
    line("threads that are there", there);
    hex_line("the hash of their turns", hash);
    for (u64 n = 0; n < THREADS; n++)
        for (u64 other = 0; other < n; other++)
            equal += tids[n] == tids[other];
    line("equal numbers", equal);
    store(&is_over, 1);
    wake_at(&is_over, ALL);
    for (u64 n = 0; n < THREADS; n++)
        join(&threads[n]);
    // Others can come in their place.
    for (u64 n = 0; n < AGAIN; n++)
        start(&threads[n], work, n);
    for (u64 n = 0; n < AGAIN; n++)
        join(&threads[n]);
    line("threads that were there", there);
    return 0;
}
