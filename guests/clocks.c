// Clocks: their times never go back, and other clocks aren't there.
#include "guest.h"

int guest(int count, char **arguments)
{
    static const u8 clocks[] = {0, 1, 4, 5, 6, 7};
    u64 before, goes_back = 0, passes;
    for (u64 at = 0; at < COUNT(clocks); at++) {
        struct time time = {-1, -1};
        answer("clock_gettime", clock_gettime(clocks[at], &time));
        truth("it is a time", time.seconds >= 0 && time.nanoseconds >= 0 && time.nanoseconds < 1000000000);
    }
    before = now();
    for (u64 i = 0; i < 100; i++) {
        u64 next = now();
        goes_back |= next < before;
        before = next;
    }
    truth("it goes back", goes_back);
    // Something passes while this thread waits for it.
    before = now();
    for (passes = 0; now() == before && passes < 100000; passes++)
        sched_yield();
    truth("it passes", now() > before);
    answer("another clock", clock_gettime(77, &before));
    answer("another clock and a place that can't be written", clock_gettime(77, 0));
    answer("a place that can't be written", clock_gettime(1, (void *)16));
    return 0;
}
