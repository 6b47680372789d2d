// Real-time signals: each is kept as often as it is sent, and they come by their numbers, those of the thread first.
#include "signals.h"

static void note(i32 signal, struct info *info, struct context *context)
{
    text(" ");
    number(signal);
    text(info->code == 0 ? " of the process" : info->code == -6 ? " of the thread" : " of another kind");
    if (info->signal != signal || info->pid != getpid() || info->uid != getuid())
        text(" with wrong information");
}

static void show_all(const char *name)
{
    hex_line("pending", pending());
    text(name);
    text(":");
    change_mask(TO_SET, 0);
    text("\n");
    change_mask(TO_SET, -1UL << 33);
}

int guest(int count, char **arguments)
{
    static const u8 signals[] = {41, 40, 42, 41, 40, 41, 50, 38, 50};
    for (u64 signal = 36; signal <= 52; signal++)
        handle(signal, note, 0, -1);
    change_mask(TO_SET, -1UL << 33);
    for (u64 at = 0; at < COUNT(signals); at++)
        raise(signals[at]);
    show_all("to the thread");
    for (u64 at = 0; at < COUNT(signals); at++)
        kill(getpid(), signals[at]);
    show_all("to the process");
    kill(getpid(), 37);
    raise(45);
    kill(getpid(), 45);
    raise(44);
    kill(getpid(), 36);
    show_all("to both");

    // Some stay blocked.
    raise(40);
    raise(39);
    raise(39);
    text("one of two:");
    change_mask(TO_UNBLOCK, ONLY(39));
    text("\n");
    show_all("the other");

    // What is ignored is gone, however often it was sent.
    for (u64 i = 0; i < 10; i++)
        raise(47);
    raise(48);
    set_action(47, TO_IGNORE, 0, 0);
    handle(47, note, 0, -1);
    show_all("what wasn't ignored");

    for (u64 i = 0; i < 20; i++)
        raise(52);
    show_all("often");
    return 0;
}
