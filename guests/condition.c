// A condition over a futex: three threads put numbers into a short queue, and four take them out.
#include "locks.h"

enum { MAKERS = 3, TAKERS = 4, NUMBERS = 30, ROOM = 4 };

static struct thread makers[MAKERS], takers[TAKERS];
static u32 lock, can_put, can_take;
static volatile u64 queue[ROOM], held, first, most, ended, taken[TAKERS], sums[TAKERS];

static i64 make(u64 n)
{
    for (u64 i = 1; i <= NUMBERS; i++) {
        take(&lock);
        while (held == ROOM)
            wait_for_signal(&can_put, &lock);
        queue[(first + held++) % ROOM] = n * 1000 + i;
        if (held > most)
            most = held;
        give(&lock);
        signal_one(&can_take);
    }
    return 0;
}

static i64 use(u64 n)
{
    for (;;) {
        take(&lock);
        while (held == 0 && !ended)
            wait_for_signal(&can_take, &lock);
        if (held == 0) {
            give(&lock);
            return 0;
        }
        sums[n] += queue[first];
        taken[n]++;
        first = (first + 1) % ROOM;
        held--;
        give(&lock);
        signal_one(&can_put);
    }
}

int guest(int count, char **arguments)
{
    u64 sum = 0, all = 0;
    for (u64 n = 0; n < TAKERS; n++)
        start(&takers[n], use, n);
    for (u64 n = 0; n < MAKERS; n++)
        start(&makers[n], make, n);
    for (u64 n = 0; n < MAKERS; n++)
        join(&makers[n]);
    take(&lock);
    ended = 1;
    give(&lock);
    signal_all(&can_take);
    for (u64 n = 0; n < TAKERS; n++)
        join(&takers[n]);
    for (u64 n = 0; n < TAKERS; n++) {
        sum += sums[n];
        all += taken[n];
    }
    line("numbers that were taken", all);
    line("their sum", sum);
    line("numbers that are left", held);
    truth("the queue was never too long", most <= ROOM);
    return 0;
}
