// A lock for readers and writers over futexes: readers see two numbers that writers change one after the other, and never
// one without the other.
#include "threads.h"

enum { READERS = 8, WRITERS = 3, TIMES = 15, WRITER = 0x80000000 };

static struct thread readers[READERS], writers[WRITERS];
// The count of readers, or the bit of a writer.
static u32 state;
static volatile u64 one, other;
static u32 wrong, reads;

static void take_to_read(void)
{
    for (;;) {
        u32 seen = load(&state);
        if (seen & WRITER)
            wait_at(&state, seen);
        else if (compare_swap(&state, seen, seen + 1) == seen)
            return;
    }
}

static void give_from_read(void)
{
    if (fetch_add(&state, -1) == 1)
        wake_at(&state, ALL);
}

static void take_to_write(void)
{
    for (u32 seen; (seen = compare_swap(&state, 0, WRITER)) != 0;)
        wait_at(&state, seen);
}

static void give_from_write(void)
{
    store(&state, 0);
    wake_at(&state, ALL);
}

static i64 do_reads(u64 n)
{
    for (u64 i = 0; i < TIMES; i++) {
        take_to_read();
        if (one * 3 != other)
            fetch_add(&wrong, 1);
        if (i % 4 == 0)
            sched_yield();
        if (one * 3 != other)
            fetch_add(&wrong, 1);
        fetch_add(&reads, 1);
        give_from_read();
    }
    return 0;
}

static i64 do_writes(u64 n)
{
    for (u64 i = 0; i < TIMES; i++) {
        take_to_write();
        one += n + 1;
        if (i % 2 == 0)
            sched_yield();
        other += 3 * (n + 1);
        give_from_write();
    }
    return 0;
}

int guest(int count, char **arguments)
{
    for (u64 n = 0; n < READERS; n++)
        start(&readers[n], do_reads, n);
    for (u64 n = 0; n < WRITERS; n++)
        start(&writers[n], do_writes, n);
    for (u64 n = 0; n < READERS; n++)
        join(&readers[n]);
    for (u64 n = 0; n < WRITERS; n++)
        join(&writers[n]);
    line("one", one);
    line("other", other);
    line("reads", reads);
    line("reads of one without the other", wrong);
    line("the state", state);
    return 0;
}
