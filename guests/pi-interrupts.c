// A signal that comes while a thread waits for a lock that names its owner: the handler runs, and the wait begins again,
// whether the handler asks for it or not, and whether there is a timeout or not.
#include "pi.h"
#include "signals.h"

static struct thread thread;
static u32 lock, times;
static volatile i64 result;
static volatile u32 owner_in_handler;

static void note(i32 signal, struct info *info, struct context *context)
{
    owner_in_handler = load(&lock) & OWNER;
    fetch_add(&times, 1);
}

static i64 take_it(u64 timed)
{
    struct time time;
    clock_gettime(0, &time);
    time.seconds += 100000;
    result = lock_pi(&lock, timed ? &time : 0);
    if (result == 0)
        unlock_pi(&lock);
    return 0;
}

static void show(const char *name, u64 flags, u64 timed)
{
    u32 tid = gettid();
    handle(SIGUSR1, note, flags, 0);
    store(&times, 0);
    lock_pi(&lock, 0);
    start(&thread, take_it, timed);
    await_waiter(&lock);
    for (u32 n = 1; n <= 5; n++) {
        tgkill(getpid(), thread.tid, SIGUSR1);
        await(&times, n);
    }
    text(name);
    truth(", the owner stays", owner_in_handler == tid && (load(&lock) & OWNER) == tid);
    unlock_pi(&lock);
    join(&thread);
    text(name);
    answer("", result);
    line("times", times);
    hex_line("the word", lock);
}

int guest(int count, char **arguments)
{
    show("a handler", 0, 0);
    show("a handler and a timeout", 0, 1);
    show("a handler that asks to begin again", SA_RESTART, 0);
    show("the same with a timeout", SA_RESTART, 1);
    return 0;
}
