// A signal that comes while a thread waits for several words: the wait begins again where the handler asks for it, and
// else answers EINTR, as it does where it has a timeout.
#include "signals.h"
#include "waitv.h"

static struct thread thread;
static u32 words[2], times, done;
static struct place places[2];
static volatile i64 result;

static void note(i32 signal, struct info *info, struct context *context) { fetch_add(&times, 1); }

static i64 in_waitv(u64 timed)
{
    struct time time;
    clock_gettime(1, &time);
    time.seconds += 100000;
    result = futex_waitv(places, 2, 0, timed ? &time : 0, 1);
    store(&done, 1);
    return 0;
}

// The thread is signalled until its call ends: it may not wait yet when a signal comes.
static void show_interrupted(const char *name, u64 timed)
{
    store(&done, 0);
    start(&thread, in_waitv, timed);
    while (!load(&done)) {
        tgkill(getpid(), thread.tid, SIGUSR1);
        sched_yield();
    }
    join(&thread);
    answer(name, result);
    line("waiters that are left", wake_at(&words[0], ALL) + wake_at(&words[1], ALL));
}

int guest(int count, char **arguments)
{
    for (u64 at = 0; at < COUNT(places); at++)
        places[at] = (struct place){0, &words[at], PRIVATE_WORD, 0};
    handle(SIGUSR1, note, 0, 0);
    show_interrupted("a handler", 0);
    show_interrupted("a handler and a timeout", 1);

    handle(SIGUSR1, note, SA_RESTART, 0);
    store(&times, 0);
    start(&thread, in_waitv, 0);
    for (u32 n = 1; n <= 5; n++) {
        tgkill(getpid(), thread.tid, SIGUSR1);
        await(&times, n);
    }
    wake_one(&words[1]);
    join(&thread);
    answer("a handler that asks to begin again", result);
    line("times", times);

    // A signal that is ignored ends no wait.
    set_action(SIGUSR1, TO_IGNORE, 0, 0);
    start(&thread, in_waitv, 1);
    for (u32 n = 0; n < 5; n++)
        tgkill(getpid(), thread.tid, SIGUSR1);
    wake_one(&words[0]);
    join(&thread);
    answer("a signal that is ignored", result);
    return 0;
}
