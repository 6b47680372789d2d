// Standard input and output in an epoll: bytes that are there, the end of the input, and room for output.
#include "epolls.h"

static u8 buffer[1000];

int guest(int count, char **arguments)
{
    struct event event;
    u64 sum = 0;
    i64 moved, epoll = epoll_create1(0);
    answer("add", interest(epoll, ADD, 0, IN, 1));
    answer("wait", epoll_pwait(epoll, &event, 1, -1, 0, 8));
    line("data", event.data);
    truth("bytes are there", event.bits & IN);
    while ((moved = read(0, buffer, 10)) > 0)
        for (i64 at = 0; at < moved; at++)
            sum += buffer[at];
    line("the sum of the bytes", sum);
    show_events("at the end", epoll);
    answer("add of standard output", interest(epoll, ADD, 1, IN | OUT, 2));
    answer("wait", epoll_pwait(epoll, &event, 1, -1, 0, 8));
    answer("delete", interest(epoll, DELETE, 0, 0, 0));
    answer("wait", epoll_pwait(epoll, &event, 1, -1, 0, 8));
    line("data", event.data);
    hex_line("bits", event.bits);
    return 0;
}
