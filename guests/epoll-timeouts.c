// Waits at an epoll with and without a timeout, ended by the time, by another thread or by a signal, and with another mask
// for their time.
#include "epolls.h"
#include "signals.h"
#include "threads.h"

static struct thread thread;
static i32 ends[2];
static volatile u32 times;
static volatile u64 mask_then;

static void note(i32 signal, struct info *info, struct context *context)
{
    times++;
    mask_then = mask();
}

static i64 write_later(u64 n)
{
    for (u64 i = 0; i < n; i++)
        sched_yield();
    write(ends[1], "a", 1);
    return 0;
}

static i64 close_later(u64 n)
{
    for (u64 i = 0; i < n; i++)
        sched_yield();
    close(ends[1]);
    return 0;
}

static void show(const char *name, i64 result, const struct event *event)
{
    text(name);
    text(": ");
    if (result < 0)
        text(error_name(-result));
    else
        number(result);
    if (result > 0) {
        text(", data ");
        number(event->data);
        text(", bits ");
        hex(event->bits);
    }
    text(", times ");
    number(times);
    text("\n");
}

int guest(int count, char **arguments)
{
    struct event event = {};
    u64 begin_at, unblocked = ONLY(SIGUSR2), byte;
    i64 epoll = epoll_create1(0), result;
    pipe2(ends, 0);
    handle(SIGUSR1, note, SA_RESTART, 0);
    interest(epoll, ADD, ends[0], IN, 7);
    show("no time", epoll_pwait(epoll, &event, 1, 0, 0, 8), &event);
    begin_at = now();
    show("two milliseconds", epoll_pwait(epoll, &event, 1, 2, 0, 8), &event);
    truth("they have passed", now() - begin_at >= 2000000);
    for (u64 n = 0; n < 12; n += 4) {
        start(&thread, write_later, n);
        result = epoll_pwait(epoll, &event, 1, n == 4 ? 1000000000 : -1, 0, 8);
        show("another thread writes", result, &event);
        join(&thread);
        read(ends[0], &byte, 1);
    }

    change_mask(TO_SET, ONLY(SIGUSR1));
    raise(SIGUSR1);
    show("a signal that is blocked", epoll_pwait(epoll, &event, 1, 1, 0, 8), &event);
    show("unblocked for the time", epoll_pwait(epoll, &event, 1, -1, &unblocked, 8), &event);
    hex_line("what was blocked", mask_then);
    hex_line("what is blocked", mask());
    raise(SIGUSR1);
    show("no time, and a signal", epoll_pwait(epoll, &event, 1, 0, &unblocked, 8), &event);
    hex_line("what is pending", pending());
    write(ends[1], "b", 1);
    show("an event and a signal", epoll_pwait(epoll, &event, 1, -1, &unblocked, 8), &event);
    hex_line("what is pending", pending());
    read(ends[0], &byte, 1);
    show("the signal", epoll_pwait(epoll, &event, 1, 1000000000, &unblocked, 8), &event);
    hex_line("what is pending", pending());
    change_mask(TO_SET, 0);

    start(&thread, close_later, 3);
    show("another thread closes", epoll_pwait(epoll, &event, 1, -1, 0, 8), &event);
    join(&thread);
    return 0;
}
