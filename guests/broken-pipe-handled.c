// A write to a pipe that nobody can read any more, where the signal of it is handled, ignored or blocked.
#include "signals.h"

static volatile u32 times;
static volatile struct info seen;

static void note(i32 signal, struct info *info, struct context *context)
{
    times++;
    seen = *info;
}

int guest(int count, char **arguments)
{
    static const char bytes[100];
    struct vector vectors[2] = {{bytes, 10}, {bytes, 20}};
    i32 ends[2];
    pipe2(ends, 0);
    close(ends[0]);
    handle(SIGPIPE, note, 0, 0);
    answer("write", write(ends[1], bytes, 1));
    line("times", times);
    line("the signal", seen.signal);
    line("the code", seen.code);
    truth("the process is told", seen.pid == getpid() && seen.uid == getuid());
    answer("writev", writev(ends[1], vectors, 2));
    line("times", times);
    answer("write of no bytes", write(ends[1], bytes, 0));
    line("times", times);
    handle(SIGPIPE, note, SA_RESTART, 0);
    answer("write, where the handler asks to begin again", write(ends[1], bytes, 5));
    line("times", times);
    fcntl(ends[1], F_SETFL, NONBLOCK);
    answer("write that doesn't wait", write(ends[1], bytes, 5));
    line("times", times);

    set_action(SIGPIPE, TO_IGNORE, 0, 0);
    answer("write where it is ignored", write(ends[1], bytes, 1));
    line("times", times);

    handle(SIGPIPE, note, 0, 0);
    change_mask(TO_BLOCK, ONLY(SIGPIPE));
    answer("write where it is blocked", write(ends[1], bytes, 1));
    answer("and again", write(ends[1], bytes, 1));
    line("times", times);
    hex_line("pending", pending());
    change_mask(TO_UNBLOCK, ONLY(SIGPIPE));
    line("times", times);
    return 0;
}
