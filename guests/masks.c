// Blocked and pending signals of one thread.
#include "signals.h"

static volatile u32 times;
static volatile u64 mask_then;

static void note(i32 signal, struct info *info, struct context *context)
{
    times++;
    mask_then = mask();
    // A change of the mask in a handler is undone when it ends.
    change_mask(TO_BLOCK, ONLY(SIGHUP));
    change_mask(TO_UNBLOCK, ONLY(SIGTERM));
}

static void show(const char *name, i64 result)
{
    text(name);
    text(": ");
    number(result);
    text(", blocked ");
    hex(mask());
    text(", pending ");
    hex(pending());
    text(", times ");
    number(times);
    text("\n");
}

int guest(int count, char **arguments)
{
    u64 set = ONLY(SIGUSR1), old = 99;
    i64 bad = new_pages(PAGE);
    handle(SIGUSR1, note, 0, 0);
    handle(SIGUSR2, note, 0, ONLY(SIGINT));
    show("at the start", 0);
    answer("block", sigprocmask(TO_BLOCK, &set, &old, 8));
    hex_line("what was blocked", old);
    show("block of more", change_mask(TO_BLOCK, ONLY(SIGUSR2) | ONLY(SIGTERM) | ONLY(40)));
    show("raise", raise(SIGUSR1));
    show("raise again", raise(SIGUSR1));
    show("raise of another", raise(SIGUSR2));
    show("unblock of the one", change_mask(TO_UNBLOCK, ONLY(SIGUSR1) | ONLY(SIGPIPE)));
    hex_line("what was blocked", mask_then);
    show("set", change_mask(TO_SET, ONLY(SIGTERM)));
    hex_line("what was blocked", mask_then);
    show("all", change_mask(TO_SET, 0x7fffffff));

    // One for the thread and one for the process are two, and more are no more.
    show("raise", raise(SIGUSR1));
    show("kill", kill(getpid(), SIGUSR1));
    show("kill again", kill(getpid(), SIGUSR1));
    show("none", change_mask(TO_SET, 0));

    answer("another size", sigprocmask(TO_BLOCK, &set, 0, 4));
    answer("another way", sigprocmask(3, &set, 0, 8));
    answer("another way of no set", sigprocmask(3, 0, &old, 8));
    munmap(bad, PAGE);
    answer("a set that can't be read", sigprocmask(TO_SET, (void *)bad, 0, 8));
    show("nothing changes", 0);
    answer("a place that can't be written", sigprocmask(TO_SET, &set, (void *)bad, 8));
    show("the mask is set", 0);
    answer("pending signals to such a place", sigpending((void *)bad, 8));
    answer("pending signals of another size", sigpending(&old, 9));
    return 0;
}
