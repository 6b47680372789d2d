// Wakes of a futex: how many are woken, and in which order.
#include "threads.h"

enum { THREADS = 7 };

static struct thread threads[THREADS];
static u32 word, beside, ended;
static u32 woken[THREADS];
static volatile i64 answers[THREADS];

static i64 work(u64 n)
{
    answers[n] = wait_at(&word, 0);
    store(&woken[n], 1);
    fetch_add(&ended, 1);
    return 0;
}

// Waits until so many have ended, and tells which those are that were not told before.
static void show_woken(u32 least)
{
    await(&ended, least);
    text("woken:");
    for (u64 n = 0; n < THREADS; n++)
        if (load(&woken[n]) == 1) {
            text(" ");
            number(n);
            store(&woken[n], 2);
        }
    text("\n");
}

int guest(int count, char **arguments)
{
    u64 sum = 0;
    answer("wake of nobody", wake_at(&word, 5));
    answer("wait for another value", wait_at(&word, 1));
    for (u64 n = 0; n < THREADS; n++) {
        start(&threads[n], work, n);
        await_waiters(&word, n + 1);
    }
    answer("wake at the word beside it", wake_at(&beside, ALL));
    answer("wake of one", wake_at(&word, 1));
    show_woken(1);
    answer("wake of one", wake_at(&word, 1));
    show_woken(2);
    answer("wake of two", wake_at(&word, 2));
    show_woken(4);
    line("waiters", waiters(&word));
    // Who waits is not woken by a change of the word, and is woken whatever it is.
    store(&word, 1);
    line("waiters", waiters(&word));
    answer("wake of one", wake_at(&word, 1));
    show_woken(5);
    answer("wake of five where two wait", wake_at(&word, 5));
    show_woken(7);
    answer("wake of all", wake_at(&word, ALL));
    for (u64 n = 0; n < THREADS; n++) {
        join(&threads[n]);
        sum += answers[n];
    }
    line("the sum of the waits' answers", sum);
    return 0;
}
