// Vector registers are a thread's own: each thread keeps two of them through calls and waits, and a new one has those of
// the thread that made it.
#include "threads.h"

enum { THREADS = 6, ROUNDS = 20 };

static struct thread threads[THREADS];
static u32 turn, wrong;
static volatile u64 inherited[THREADS];

// Sets a register to a number, and tells what the lower half of it holds.
#define SET(name, number) asm volatile("dup v" name ".2d, %0" : : "r"((u64)(number)) : "memory")
#define GET(name, to) asm volatile("str q" name ", [%0]" : : "r"(to) : "memory")

static i64 work(u64 n)
{
    u64 both[2] __attribute__((aligned(16))), other[2] __attribute__((aligned(16)));
    GET("9", both);
    inherited[n] = both[0];
    SET("8", n * 1000);
    SET("31", ~n);
    for (u64 round = 0; round < ROUNDS; round++) {
        for (u32 seen; (seen = load(&turn)) % THREADS != n;)
            wait_at(&turn, seen);
        GET("8", both);
        GET("31", other);
        if (both[0] != n * 1000 + round || both[1] != both[0] || other[0] != ~(n + round) || other[1] != other[0])
            fetch_add(&wrong, 1);
        SET("8", n * 1000 + round + 1);
        SET("31", ~(n + round + 1));
        fetch_add(&turn, 1);
        wake_at(&turn, ALL);
    }
    return 0;
}

int guest(int count, char **arguments)
{
    u64 both[2] __attribute__((aligned(16))), unequal = 0;
    SET("8", 77);
    for (u64 n = 0; n < THREADS; n++) {
        SET("9", 500 + n);
        start(&threads[n], work, n);
    }
    for (u64 n = 0; n < THREADS; n++)
        join(&threads[n]);
    for (u64 n = 0; n < THREADS; n++)
        unequal += inherited[n] != 500 + n;
    line("turns", turn);
    line("wrong", wrong);
    line("registers that a thread had not from its parent", unequal);
    GET("8", both);
    line("the first thread's own", both[0]);
    return 0;
}
