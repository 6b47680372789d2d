// Waits with a timeout: relative and absolute, passed before they begin, refused, and ended by a wake before their time.
#include "threads.h"

static struct thread thread;
static u32 word;
static volatile i64 answer_of_thread;

static i64 wait_long(u64 absolute)
{
    struct time length = {100000, 999999999};
    if (absolute) {
        struct time time;
        clock_gettime(1, &time);
        length.seconds += time.seconds;
        answer_of_thread = futex(&word, FUTEX_WAIT_BITSET | FUTEX_PRIVATE, 0, (u64)&length, 0, -1);
    } else
        answer_of_thread = futex(&word, FUTEX_WAIT | FUTEX_PRIVATE, 0, (u64)&length, 0, 0);
    return 0;
}

static i64 wait_for(i64 seconds, i64 nanoseconds)
{
    struct time length = {seconds, nanoseconds};
    return futex(&word, FUTEX_WAIT | FUTEX_PRIVATE, 0, (u64)&length, 0, 0);
}

static i64 wait_until(u64 clock, i64 seconds, i64 nanoseconds)
{
    struct time time = {seconds, nanoseconds};
    return futex(&word, FUTEX_WAIT_BITSET | FUTEX_PRIVATE | clock, 0, (u64)&time, 0, -1);
}

int guest(int count, char **arguments)
{
    struct time time;
    u64 begin;

    answer("no time", wait_for(0, 0));
    begin = now();
    answer("a millisecond and a half", wait_for(0, 1500000));
    truth("it has passed", now() - begin >= 1500000);
    begin = now();
    answer("a nanosecond", wait_for(0, 1));
    truth("it has passed", now() - begin >= 1);
    line("waiters", waiters(&word));
    answer("wake of nobody", wake_at(&word, 1));

    answer("until the beginning", wait_until(0, 0, 0));
    clock_gettime(1, &time);
    answer("until now", wait_until(0, time.seconds, time.nanoseconds));
    time.nanoseconds += 2000000;
    if (time.nanoseconds >= 1000000000) {
        time.seconds++;
        time.nanoseconds -= 1000000000;
    }
    answer("until two milliseconds from now", wait_until(0, time.seconds, time.nanoseconds));
    truth("they have passed", now() >= time.seconds * 1000000000UL + time.nanoseconds);
    answer("until the beginning of the other clock", wait_until(FUTEX_REAL_TIME, 0, 1));
    clock_gettime(0, &time);
    answer("until now by the other clock", wait_until(FUTEX_REAL_TIME, time.seconds, time.nanoseconds));

    // The word is looked at even where no time is left, and a bad time is refused before.
    store(&word, 1);
    answer("another value and no time", wait_for(0, 0));
    answer("another value, until the beginning", wait_until(0, 0, 0));
    answer("another value and a bad time", wait_for(-1, 0));
    store(&word, 0);
    answer("less than no seconds", wait_for(-1, 999999999));
    answer("less than no nanoseconds", wait_for(1, -1));
    answer("a second of nanoseconds", wait_for(0, 1000000000));
    answer("until less than no seconds", wait_until(0, -1, 0));
    answer("until a second of nanoseconds", wait_until(0, 0, 1000000000));
    answer("a time that can't be read", futex(&word, FUTEX_WAIT | FUTEX_PRIVATE, 0, 16, 0, 0));

    for (u64 absolute = 0; absolute <= 1; absolute++) {
        start(&thread, wait_long, absolute);
        await_waiters(&word, 1);
        answer("wake of one that would wait for long", wake_at(&word, 1));
        join(&thread);
        answer("its answer", answer_of_thread);
    }
    return 0;
}
