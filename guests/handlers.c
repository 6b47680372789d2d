// Handlers of signals: what they are told, what is blocked meanwhile, handlers within handlers, and actions that are reset
// or ignore.
#include "signals.h"

static volatile u32 times;
static volatile i32 last;
static volatile struct info seen;
static volatile u64 mask_then;
static volatile i32 depth;

static void note(i32 signal, struct info *info, struct context *context)
{
    times++;
    last = signal;
    seen = *info;
    mask_then = mask();
}

static void note_number(i32 signal)
{
    times++;
    last = signal;
}

static void go_deeper(i32 signal, struct info *info, struct context *context)
{
    static volatile i32 begun;
    i32 own = ++begun;
    depth++;
    line("begin", own);
    if (own < 3)
        raise(signal);
    line("end", own);
    if (--depth == 0 && begun == 3)
        begun = 0;
}

static void show(const char *name, i64 result)
{
    answer(name, result);
    line("times", times);
    line("the signal", last);
    truth("the signal in the information", seen.signal == last);
    line("the error", seen.error);
    line("the code", seen.code);
    truth("the process is told", seen.pid == getpid());
    truth("the user is told", seen.uid == getuid());
    hex_line("what was blocked", mask_then);
    hex_line("what is blocked", mask());
}

int guest(int count, char **arguments)
{
    struct action old;
    handle(SIGUSR1, note, 0, ONLY(SIGUSR2) | ONLY(SIGTERM));
    show("kill", kill(getpid(), SIGUSR1));
    show("kill again", kill(getpid(), SIGUSR1));
    show("tkill", tkill(gettid(), SIGUSR1));
    show("tgkill", tgkill(getpid(), gettid(), SIGUSR1));
    handle(SIGUSR1, note, SA_NODEFER, 0);
    show("without a mask", raise(SIGUSR1));

    answer("what stands", sigaction(SIGUSR1, 0, &old, 8));
    truth("the handler", old.handler == (u64)note);
    hex_line("the flags", old.flags & (SA_SIGINFO | SA_NODEFER | SA_ONSTACK | SA_RESTART | SA_RESETHAND));
    hex_line("the mask", old.mask);

    answer("a handler that is told the number alone", set_action(SIGUSR1, (u64)note_number, 0, 0));
    raise(SIGUSR1);
    line("times", times);

    handle(SIGUSR1, note, SA_RESETHAND, 0);
    raise(SIGUSR1);
    line("times", times);
    sigaction(SIGUSR1, 0, &old, 8);
    line("the handler then", old.handler);

    handle(SIGUSR2, go_deeper, 0, 0);
    text("one after the other\n");
    raise(SIGUSR2);
    handle(SIGUSR2, go_deeper, SA_NODEFER, 0);
    text("one within the other\n");
    raise(SIGUSR2);

    times = 0;
    answer("ignore", set_action(SIGUSR1, TO_IGNORE, 0, 0));
    answer("raise", raise(SIGUSR1));
    answer("what is ignored by default", raise(SIGCHLD) + raise(SIGWINCH));

    // A blocked signal is no more pending when it is ignored, even if it is handled again.
    handle(SIGUSR1, note, 0, 0);
    handle(SIGCHLD, note, 0, 0);
    change_mask(TO_BLOCK, ONLY(SIGUSR1) | ONLY(SIGCHLD));
    raise(SIGUSR1);
    raise(SIGCHLD);
    hex_line("pending", pending());
    set_action(SIGUSR1, TO_IGNORE, 0, 0);
    hex_line("pending", pending());
    set_action(SIGCHLD, TO_DEFAULT, 0, 0);
    hex_line("pending", pending());
    handle(SIGUSR1, note, 0, 0);
    handle(SIGCHLD, note, 0, 0);
    change_mask(TO_SET, 0);
    line("times", times);
    return 0;
}
