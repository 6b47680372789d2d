// Waits for several words with a timeout, which is a time of one of two clocks: passed before they begin, passed meanwhile,
// and ended by a wake before their time.
#include "waitv.h"

static struct thread thread;
static u32 words[3];
static struct place places[3];
static volatile i64 answer_of_thread;

static i64 wait_until(u64 clock, i64 seconds, i64 nanoseconds)
{
    struct time time = {seconds, nanoseconds};
    return futex_waitv(places, COUNT(places), 0, &time, clock);
}

static i64 wait_long(u64 clock)
{
    struct time time;
    clock_gettime(clock, &time);
    answer_of_thread = wait_until(clock, time.seconds + 100000, time.nanoseconds);
    return 0;
}

int guest(int count, char **arguments)
{
    for (u64 at = 0; at < COUNT(places); at++)
        places[at] = (struct place){0, &words[at], PRIVATE_WORD, 0};
    for (u64 clock = 0; clock <= 1; clock++) {
        struct time time, after;
        line("clock", clock);
        answer("until the beginning", wait_until(clock, 0, 0));
        clock_gettime(clock, &time);
        answer("until now", wait_until(clock, time.seconds, time.nanoseconds));
        time.nanoseconds += 2000001;
        if (time.nanoseconds >= 1000000000) {
            time.seconds++;
            time.nanoseconds -= 1000000000;
        }
        answer("until two milliseconds from now", wait_until(clock, time.seconds, time.nanoseconds));
        clock_gettime(clock, &after);
        truth("they have passed", after.seconds > time.seconds ||
                                      (after.seconds == time.seconds && after.nanoseconds >= time.nanoseconds));
        line("waiters that are left", wake_at(&words[0], ALL) + wake_at(&words[1], ALL) + wake_at(&words[2], ALL));
        start(&thread, wait_long, clock);
        wake_one(&words[clock + 1]);
        join(&thread);
        answer("woken before the time", answer_of_thread);
        line("waiters that are left", wake_at(&words[0], ALL) + wake_at(&words[1], ALL) + wake_at(&words[2], ALL));
    }
    words[2] = 1;
    answer("another value, until the beginning", wait_until(1, 0, 0));
    return 0;
}
