// Signals to threads: each takes its own, one of the process goes to a thread that doesn't block it, and a new thread has
// the mask of the one that starts it and no pending signals.
#include "signals.h"
#include "threads.h"

enum { THREADS = 5 };

static struct thread threads[THREADS];
static u32 got[THREADS], by_process[THREADS], ready, may_end, wrong, total;

static u64 own_number(void) { return (struct thread *)thread_pointer() - threads; }

static void note(i32 signal, struct info *info, struct context *context)
{
    u64 n = own_number();
    if (n >= THREADS || signal != SIGUSR1 || info->code != -6 || info->pid != getpid())
        fetch_add(&wrong, 1);
    else
        fetch_add(&got[n], 1);
    fetch_add(&total, 1);
}

static void note_of_process(i32 signal, struct info *info, struct context *context)
{
    u64 n = own_number();
    if (n >= THREADS || signal != SIGUSR2 || info->code != 0)
        fetch_add(&wrong, 1);
    else
        fetch_add(&by_process[n], 1);
    fetch_add(&total, 1);
}

static i64 work(u64 n)
{
    if (mask() != (ONLY(SIGUSR1) | ONLY(SIGUSR2)) || pending() != 0)
        fetch_add(&wrong, 1);
    change_mask(TO_UNBLOCK, ONLY(SIGUSR1));
    if (n == 3)
        change_mask(TO_UNBLOCK, ONLY(SIGUSR2));
    fetch_add(&ready, 1);
    while (!load(&may_end))
        wait_at(&may_end, 0);
    return 0;
}

int guest(int count, char **arguments)
{
    handle(SIGUSR1, note, 0, 0);
    handle(SIGUSR2, note_of_process, 0, 0);
    change_mask(TO_SET, ONLY(SIGUSR1) | ONLY(SIGUSR2));
    raise(SIGUSR1);
    for (u64 n = 0; n < THREADS; n++)
        start(&threads[n], work, n);
    await(&ready, THREADS);
    for (u64 n = 0; n < THREADS; n++)
        for (u32 i = 1; i <= n; i++) {
            tgkill(getpid(), threads[n].tid, SIGUSR1);
            await(&got[n], i);
        }
    for (u32 i = 1; i <= 4; i++) {
        kill(getpid(), SIGUSR2);
        await(&by_process[3], i);
    }
    store(&may_end, 1);
    for (u64 n = 0; n < THREADS; n++)
        while (load(&threads[n].alive)) {
            wake_at(&may_end, ALL);
            sched_yield();
        }
    for (u64 n = 0; n < THREADS; n++)
        line("times", got[n]);
    line("times of the process", by_process[3]);
    line("all times", total);
    line("wrong ones", wrong);
    hex_line("pending", pending());
    // The word of a thread may be cleared a little before the thread is gone.
    while (tgkill(getpid(), threads[0].tid, 0) == 0)
        sched_yield();
    answer("a thread that has ended", tgkill(getpid(), threads[0].tid, SIGUSR1));
    return 0;
}
