// Waits and wakes with sets of bits: a wake is for those waiters alone that have a bit in common with it.
#include "threads.h"

static const u32 sets[] = {1, 2, 4, 6, 0xffffffff, 0x80000000, 3};

enum { THREADS = COUNT(sets) };

static struct thread threads[THREADS];
static u32 word, ended, all;
static u32 woken[THREADS];
static volatile i64 answers[THREADS];

static i64 work(u64 n)
{
    // One of them waits without a set, which is to wait with all bits.
    answers[n] = n == 4 ? wait_at(&word, 0) : futex(&word, FUTEX_WAIT_BITSET | FUTEX_PRIVATE, 0, 0, 0, sets[n]);
    store(&woken[n], 1);
    fetch_add(&ended, 1);
    return 0;
}

static void show_wake(u64 count, u32 set)
{
    i64 result = futex(&word, FUTEX_WAKE_BITSET | FUTEX_PRIVATE, count, 0, 0, set);
    text("wake with ");
    hex(set);
    text(": ");
    number(result);
    all += result;
    await(&ended, all);
    for (u64 n = 0; n < THREADS; n++)
        if (load(&woken[n]) == 1) {
            text(", ");
            number(n);
            store(&woken[n], 2);
        }
    text("\n");
}

int guest(int count, char **arguments)
{
    u64 sum = 0;
    answer("wait with no bits", futex(&word, FUTEX_WAIT_BITSET | FUTEX_PRIVATE, 0, 0, 0, 0));
    answer("wake with no bits", futex(&word, FUTEX_WAKE_BITSET | FUTEX_PRIVATE, 1, 0, 0, 0));
    answer("wait for another value", futex(&word, FUTEX_WAIT_BITSET | FUTEX_PRIVATE, 1, 0, 0, 1));
    for (u64 n = 0; n < THREADS; n++) {
        start(&threads[n], work, n);
        await_waiters(&word, n + 1);
    }
    show_wake(ALL, 8);
    show_wake(ALL, 8);
    show_wake(1, 2);
    show_wake(1, 4);
    show_wake(ALL, 0x80000001);
    show_wake(ALL, 0x7ffffff8);
    line("waiters", waiters(&word));
    answer("wake without a set", wake_at(&word, 1));
    await(&ended, ++all);
    show_wake(1, 0x10);
    line("waiters", waiters(&word));
    show_wake(ALL, 0xffffffff);
    for (u64 n = 0; n < THREADS; n++) {
        join(&threads[n]);
        sum += answers[n];
    }
    line("the sum of the waits' answers", sum);
    return 0;
}
