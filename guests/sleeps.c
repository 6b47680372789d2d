// Sleep is never too short, in several threads at once.
#include "threads.h"

enum { THREADS = 6 };

static struct thread threads[THREADS];
static u32 too_short, slept;

static i64 sleep_for(i64 seconds, i64 nanoseconds)
{
    struct time length = {seconds, nanoseconds}, rest = {77, 88};
    i64 result = nanosleep(&length, &rest);
    // The rest is stored by a signal alone.
    return rest.seconds == 77 && rest.nanoseconds == 88 ? result : 1;
}

static i64 work(u64 n)
{
    for (u64 i = 0; i < 5; i++) {
        u64 begin_at = now(), length = (n + 1) * 150000;
        if (sleep_for(0, length) != 0 || now() - begin_at < length)
            fetch_add(&too_short, 1);
        fetch_add(&slept, 1);
    }
    return 0;
}

int guest(int count, char **arguments)
{
    struct time length = {0, 1000};
    u64 begin_at;
    answer("no time", sleep_for(0, 0));
    answer("a nanosecond", sleep_for(0, 1));
    begin_at = now();
    answer("three milliseconds", sleep_for(0, 3000000));
    truth("they have passed", now() - begin_at >= 3000000);
    begin_at = now();
    answer("without a place for the rest", nanosleep(&length, 0));
    answer("with one that can't be written", nanosleep(&length, (void *)16));
    truth("the times have passed", now() - begin_at >= 2000);
    for (u64 n = 0; n < THREADS; n++)
        start(&threads[n], work, n);
    for (u64 n = 0; n < THREADS; n++)
        join(&threads[n]);
    line("sleeps", slept);
    line("that were too short", too_short);
    return 0;
}
