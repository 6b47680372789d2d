// Two threads that take turns by a word, and three that hand a number round.
#include "threads.h"

enum { TURNS = 100, RING = 3 };

static struct thread threads[RING];
static u32 turn, words[RING];
static volatile u64 numbers[2 * TURNS], length;
static volatile i64 last;

static i64 take_turns(u64 n)
{
    for (u64 i = 0; i < TURNS; i++) {
        while (load(&turn) != n)
            wait_at(&turn, 1 - n);
        numbers[length++] = n * 1000 + i;
        store(&turn, 1 - n);
        wake_at(&turn, 1);
    }
    return 0;
}

// Waits for a number, and hands on the next one.
static i64 hand_on(u64 n)
{
    for (;;) {
        u32 number;
        while ((number = swap(&words[n], 0)) == 0)
            wait_at(&words[n], 0);
        if (number <= 90)
            last = n * 1000 + number;
        store(&words[(n + 1) % RING], number + 1);
        wake_at(&words[(n + 1) % RING], 1);
        if (number > 90)
            return 0;
    }
}

int guest(int count, char **arguments)
{
    u64 are_right = 1;
    for (u64 n = 0; n < 2; n++)
        start(&threads[n], take_turns, n);
    for (u64 n = 0; n < 2; n++)
        join(&threads[n]);
    line("turns", length);
    for (u64 at = 0; at < length; at++)
        are_right &= numbers[at] == at % 2 * 1000 + at / 2;
    truth("they are in order", are_right);
    for (u64 n = 0; n < RING; n++)
        start(&threads[n], hand_on, n);
    store(&words[0], 1);
    wake_at(&words[0], 1);
    for (u64 n = 0; n < RING; n++)
        join(&threads[n]);
    line("the last", last);
    line("what is left", words[0] + words[1] + words[2]);
    return 0;
}
