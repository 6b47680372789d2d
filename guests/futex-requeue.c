// Waiters that are moved from one word to another.
#include "threads.h"

enum { THREADS = 10 };

static struct thread threads[THREADS];
static u32 one, other, ended;
static u32 woken[THREADS];
static volatile i64 answers[THREADS];

static i64 at_one(u64 n)
{
    answers[n] = wait_at(&one, 7);
    store(&woken[n], 1);
    fetch_add(&ended, 1);
    return 0;
}

static i64 at_other(u64 n)
{
    answers[n] = wait_at(&other, 0);
    store(&woken[n], 1);
    fetch_add(&ended, 1);
    return 0;
}

static void show_woken(u32 least)
{
    await(&ended, least);
    text("woken:");
    for (u64 n = 0; n < THREADS; n++)
        if (load(&woken[n]) == 1) {
            text(" ");
            number(n);
            store(&woken[n], 2);
        }
    text("\n");
}

static void show_waiters(void)
{
    line("waiters at the one", waiters(&one));
    line("waiters at the other", waiters(&other));
}

static i64 move(u64 operation, u64 wakes, u64 moves, u32 expected)
{
    return futex(&one, operation | FUTEX_PRIVATE, wakes, moves, &other, expected);
}

int guest(int count, char **arguments)
{
    u64 sum = 0;
    one = 7;
    start(&threads[0], at_other, 0);
    await_waiters(&other, 1);
    for (u64 n = 1; n < THREADS; n++) {
        start(&threads[n], at_one, n);
        await_waiters(&one, n);
    }
    answer("another value", move(FUTEX_CMP_REQUEUE, 1, 1, 6));
    show_waiters();
    answer("one is woken and two are moved", move(FUTEX_CMP_REQUEUE, 1, 2, 7));
    show_woken(1);
    show_waiters();
    // The one word may change: those who were moved wait at the other.
    store(&one, 8);
    answer("none is woken and one is moved", move(FUTEX_CMP_REQUEUE, 0, 1, 8));
    show_waiters();
    answer("two are woken and none is moved", move(FUTEX_CMP_REQUEUE, 2, 0, 8));
    show_woken(3);
    answer("one is woken and none is moved, whatever the word", move(FUTEX_REQUEUE, 1, 0, 0));
    show_woken(4);
    move(FUTEX_REQUEUE, 0, 1, 0);
    show_waiters();
    answer("nothing is asked", move(FUTEX_CMP_REQUEUE, 0, 0, 8));
    for (u32 n = 5; n <= 8; n++) {
        answer("wake of one at the other", wake_at(&other, 1));
        show_woken(n);
    }
    show_waiters();
    answer("one is woken and all are moved", move(FUTEX_CMP_REQUEUE, 1, ALL, 8));
    show_woken(9);
    answer("wake of all at the other", wake_at(&other, ALL));
    show_woken(10);
    answer("nobody is left", move(FUTEX_CMP_REQUEUE, 1, ALL, 8));
    for (u64 n = 0; n < THREADS; n++) {
        join(&threads[n]);
        sum += answers[n];
    }
    line("the sum of the waits' answers", sum);
    return 0;
}
