// Wakes that race with a refusal: one place has another value, so each wait is refused, unless a wake came to its other
// place before. Each wake that found the thread is the answer of one wait.
#include "waitv.h"

enum { WAITS = 300 };

static struct thread threads[2];
static u32 words[3] = {0, 0, 1}, ended;
static struct place places[3];
static volatile u64 woken, refused, others;

static i64 wait_often(u64 n)
{
    for (u64 times = 0; times < WAITS; times++) {
        i64 result = wait_for_all(places, COUNT(places));
        if (result == 0)
            woken++;
        else if (result == -11)
            refused++;
        else
            others++;
    }
    store(&ended, 1);
    return 0;
}

static volatile u64 wakes;

static i64 wake_often(u64 n)
{
    while (!load(&ended))
        wakes += wake_at(&words[0], 1);
    return 0;
}

int guest(int count, char **arguments)
{
    for (u64 at = 0; at < COUNT(places); at++)
        places[at] = (struct place){0, &words[at], PRIVATE_WORD, 0};
    start(&threads[0], wait_often, 0);
    start(&threads[1], wake_often, 0);
    join(&threads[0]);
    join(&threads[1]);
    line("waits", woken + refused);
    line("other answers", others);
    truth("as many wakes as waits that were woken", wakes == woken);
    line("waiters that are left", wake_at(&words[0], ALL) + wake_at(&words[1], ALL));
    return 0;
}
