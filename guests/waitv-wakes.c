// Waits for several words: the answer tells which word was woken, and the thread waits at the others no more.
#include "waitv.h"

static struct thread thread, other;
static u32 words[MOST_PLACES], shared;
static struct place places[MOST_PLACES];
static volatile u64 count_of_places;
static volatile i64 answer_of_thread;

static i64 wait_in_places(u64 n)
{
    answer_of_thread = wait_for_all(places, count_of_places);
    return 0;
}

static i64 wait_plainly(u64 n) { return wait_at(&words[0], 0); }

// A thread waits for so many words, and this one is woken.
static i64 woken(u64 count, u64 which)
{
    count_of_places = count;
    start(&thread, wait_in_places, 0);
    wake_one(&words[which]);
    join(&thread);
    return answer_of_thread;
}

static void prepare(void)
{
    for (u64 at = 0; at < COUNT(places); at++)
        places[at] = (struct place){words[at], &words[at], PRIVATE_WORD, 0};
}

int guest(int count, char **arguments)
{
    u64 are_right = 1, left = 0;
    prepare();
    answer("one word", woken(1, 0));
    answer("two words, the first is woken", woken(2, 0));
    answer("two words, the second is woken", woken(2, 1));
    for (u64 which = 0; which < MOST_PLACES; which++) {
        are_right &= woken(MOST_PLACES, which) == (i64)which;
        for (u64 at = 0; at < MOST_PLACES; at++)
            left += wake_at(&words[at], ALL);
    }
    truth("32 words, and each is the answer once", are_right);
    line("waiters that are left", left);

    // Each word has a value of its own, and the last one the greatest.
    for (u64 at = 0; at < MOST_PLACES; at++)
        words[at] = at + 1;
    words[MOST_PLACES - 1] = 0xffffffff;
    prepare();
    answer("words with values", woken(MOST_PLACES, MOST_PLACES - 1));
    memset(words, 0, sizeof words);
    prepare();

    // A word in two places: the one that stands first is woken first.
    places[1].at = &words[0];
    answer("a word in two places", woken(2, 0));
    line("waiters that are left", wake_at(&words[0], ALL));
    count_of_places = 2;
    start(&thread, wait_in_places, 0);
    while (wake_at(&words[0], 5) == 0)
        sched_yield();
    join(&thread);
    truth("both are woken, and the answer is one of them", answer_of_thread == 0 || answer_of_thread == 1);
    line("waiters that are left", wake_at(&words[0], ALL));

    // A word as threads of other processes know it, beside one of this process alone.
    prepare();
    places[1] = (struct place){0, &shared, WORD_OF_32_BITS, 0};
    start(&thread, wait_in_places, 0);
    while (futex(&shared, FUTEX_WAKE, 1, 0, 0, 0) == 0)
        sched_yield();
    join(&thread);
    answer("a word that is shared", answer_of_thread);

    // Bits choose among waiters, and a place has all of them.
    prepare();
    start(&thread, wait_in_places, 0);
    while (futex(&words[1], FUTEX_WAKE_BITSET | FUTEX_PRIVATE, 1, 0, 0, 0x80) == 0)
        sched_yield();
    join(&thread);
    answer("woken by a bit", answer_of_thread);

    // Two wakes of one operation on two words.
    start(&thread, wait_in_places, 0);
    while (futex(&shared, FUTEX_WAKE_OP | FUTEX_PRIVATE, 1, 1, &words[1], 0) == 0)
        sched_yield();
    join(&thread);
    answer("woken by an operation", answer_of_thread);

    // Who waits first is woken first, in whatever way it waits.
    start(&other, wait_plainly, 0);
    await_waiters(&words[0], 1);
    start(&thread, wait_in_places, 0);
    answer("wake of the first", wake_at(&words[0], 1));
    join(&other);
    wake_one(&words[0]);
    join(&thread);
    answer("then of the place", answer_of_thread);
    return 0;
}
