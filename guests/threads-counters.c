// Counters between threads: reads that wait for a value, writes that wait for room, and a semaphore.
#include "threads.h"

enum { THREADS = 4, TIMES = 20 };

static struct thread threads[2 * THREADS];
static i64 counter, semaphore, narrow;
static u32 sum, taken, ready, wrong;

static i64 add(u64 n)
{
    for (u64 i = 1; i <= TIMES; i++) {
        u64 value = i;
        if (write(counter, &value, 8) != 8)
            fetch_add(&wrong, 1);
        value = 1;
        write(semaphore, &value, 8);
    }
    return 0;
}

static i64 take(u64 n)
{
    for (u64 i = 0; i < TIMES; i++) {
        u64 value = 0;
        if (read(semaphore, &value, 8) != 8 || value != 1)
            fetch_add(&wrong, 1);
        fetch_add(&taken, value);
    }
    return 0;
}

// Waits for room, since the counter is at its end.
static i64 add_to_narrow(u64 n)
{
    u64 value = 1000;
    fetch_add(&ready, 1);
    if (write(narrow, &value, 8) != 8)
        fetch_add(&wrong, 1);
    return 0;
}

int guest(int count, char **arguments)
{
    u64 value = 0xfffffffffffffffe;
    counter = eventfd2(0, 0);
    semaphore = eventfd2(0, SEMAPHORE);
    narrow = eventfd2(0, 0);
    for (u64 n = 0; n < THREADS; n++) {
        start(&threads[n], add, n);
        start(&threads[THREADS + n], take, n);
    }
    while (load(&sum) < THREADS * TIMES * (TIMES + 1) / 2) {
        u64 part;
        if (read(counter, &part, 8) != 8 || part == 0)
            fetch_add(&wrong, 1);
        fetch_add(&sum, part);
    }
    for (u64 n = 0; n < 2 * THREADS; n++)
        join(&threads[n]);
    line("the sum", sum);
    line("taken", taken);
    answer("write", write(narrow, &value, 8));
    start(&threads[0], add_to_narrow, 0);
    await(&ready, 1);
    for (u64 i = 0; i < 20; i++)
        sched_yield();
    answer("read", read(narrow, &value, 8));
    hex_line("the value", value);
    join(&threads[0]);
    answer("read", read(narrow, &value, 8));
    line("the value", value);
    line("wrong", wrong);
    return 0;
}
