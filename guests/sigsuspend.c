// Waits for a signal with another mask for their time.
#include "signals.h"
#include "threads.h"

static struct thread thread;
static volatile u32 times;
static volatile u64 mask_then, mask_in_frame;

static void note(i32 signal, struct info *info, struct context *context)
{
    times++;
    mask_then = mask();
    mask_in_frame = context->mask;
}

static void show(const char *name, i64 result)
{
    answer(name, result);
    line("times", times);
    hex_line("what was blocked in the handler", mask_then);
    hex_line("what was blocked before", mask_in_frame);
    hex_line("what is blocked", mask());
    hex_line("what is pending", pending());
}

// Signals the first thread. The others don't end its wait.
static i64 signal_first(u64 n)
{
    u64 process = getpid();
    for (u64 i = 0; i < n; i++)
        sched_yield();
    tgkill(process, process, SIGWINCH);
    tgkill(process, process, SIGUSR2);
    tgkill(process, process, SIGCHLD);
    if (n % 2 == 0)
        tgkill(process, process, SIGUSR1);
    else
        kill(process, SIGUSR1);
    return 0;
}

int guest(int count, char **arguments)
{
    u64 blocked = ONLY(SIGUSR1) | ONLY(SIGUSR2) | ONLY(SIGTERM), other = ONLY(SIGUSR2) | ONLY(SIGHUP);
    handle(SIGUSR1, note, SA_RESTART, 0);
    handle(SIGUSR2, note, 0, 0);
    change_mask(TO_SET, blocked);
    raise(SIGUSR1);
    show("one is pending", sigsuspend(&other, 8));
    handle(SIGUSR1, note, SA_NODEFER, ONLY(SIGINT));
    raise(SIGUSR1);
    raise(SIGUSR2);
    show("another stays pending", sigsuspend(&other, 8));
    change_mask(TO_SET, 0);
    line("times", times);
    change_mask(TO_SET, blocked);

    for (u64 n = 0; n < 12; n += 3) {
        // The thread takes no signal of the process: all are blocked in it.
        change_mask(TO_SET, -1);
        start(&thread, signal_first, n);
        change_mask(TO_SET, blocked);
        show("a thread sends it", sigsuspend(&other, 8));
        join(&thread);
    }
    answer("another size", sigsuspend(&other, 4));
    answer("a set that can't be read", sigsuspend((void *)16, 8));
    hex_line("what is blocked", mask());
    return 0;
}
