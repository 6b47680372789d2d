// What the guests with epolls share: the calls, and the events of a moment.
#pragma once
#include "guest.h"

enum {
    ADD = 1,
    DELETE = 2,
    CHANGE = 3,
    IN = 1,
    OUT = 4,
    ERR = 8,
    HUP = 0x10,
    ONE_SHOT = 0x40000000,
    EDGE = 0x80000000,
};

struct event {
    u32 bits;
    u64 data;
};

CALL1(epoll_create1, 20)

static inline i64 epoll_ctl(u64 epoll, u64 operation, u64 descriptor, const void *event)
{
    return system_call(21, epoll, operation, descriptor, (u64)event, 0, 0);
}

static inline i64 epoll_pwait(u64 epoll, void *events, i64 most, i64 timeout, const void *set, u64 size)
{
    return system_call(22, epoll, (u64)events, most, timeout, (u64)set, size);
}

// Adds or changes an interest.
static inline i64 interest(u64 epoll, u64 operation, u64 descriptor, u32 bits, u64 data)
{
    struct event event = {bits, data};
    return epoll_ctl(epoll, operation, descriptor, &event);
}

// Prints the events of this moment in the order of their data, since they may come in any order.
static inline void show_events(const char *name, u64 epoll)
{
    struct event events[16];
    i64 count = epoll_pwait(epoll, events, 16, 0, 0, 8);
    text(name);
    text(": ");
    number(count);
    for (u64 data = 0; data < 100; data++)
        for (i64 at = 0; at < count; at++)
            if (events[at].data == data) {
                text(", ");
                number(data);
                text(" has ");
                hex(events[at].bits);
            }
    text("\n");
}
