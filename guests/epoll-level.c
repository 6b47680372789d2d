// Epoll by level: what holds is told each time, for the ends of pipes and for counters.
#include "epolls.h"

static u8 buffer[PIPE_ROOM];

int guest(int count, char **arguments)
{
    i32 ends[2];
    struct event events[2];
    u64 value;
    i64 epoll = epoll_create1(0), counter = eventfd2(0, 0);
    line("the epoll", epoll);
    line("its mode", fcntl(epoll, F_GETFL, 0));
    pipe2(ends, 0);
    show_events("no interest", epoll);
    answer("add", interest(epoll, ADD, ends[0], IN, 1));
    show_events("an empty pipe", epoll);
    write(ends[1], "abc", 3);
    show_events("three bytes", epoll);
    show_events("and again", epoll);
    read(ends[0], buffer, 2);
    show_events("one byte", epoll);
    read(ends[0], buffer, 2);
    show_events("no byte", epoll);

    answer("add", interest(epoll, ADD, ends[1], IN | OUT, 2));
    answer("add", interest(epoll, ADD, counter, IN | OUT, 3));
    show_events("three interests", epoll);
    value = 5;
    write(counter, &value, 8);
    show_events("a counter at 5", epoll);
    value = 0xfffffffffffffff9;
    write(counter, &value, 8);
    show_events("a counter at its end", epoll);
    read(counter, &value, 8);
    show_events("a counter at 0", epoll);
    write(ends[1], buffer, 61440);
    show_events("4096 bytes are free", epoll);
    write(ends[1], buffer, 1);
    show_events("4095 bytes are free", epoll);
    write(ends[1], buffer, 4095);
    show_events("none is free", epoll);
    read(ends[0], buffer, 4096);
    show_events("4096 bytes are free", epoll);

    answer("at most one", epoll_pwait(epoll, events, 1, -1, 0, 8));
    answer("at most two", epoll_pwait(epoll, events, 2, -1, 0, 8));
    truth("they are two", events[0].data != events[1].data);
    answer("change to nothing", interest(epoll, CHANGE, ends[0], 0, 4));
    answer("change to IN of a write end", interest(epoll, CHANGE, ends[1], IN, 5));
    show_events("the counter alone", epoll);
    answer("change", interest(epoll, CHANGE, counter, IN, 6));
    show_events("none", epoll);
    answer("change", interest(epoll, CHANGE, ends[0], IN | OUT, 7));
    show_events("bytes", epoll);

    close(ends[1]);
    show_events("bytes, and no writer", epoll);
    while (read(ends[0], buffer, sizeof buffer) > 0)
        ;
    show_events("no writer", epoll);
    interest(epoll, CHANGE, ends[0], 0, 8);
    show_events("no writer, unasked", epoll);
    answer("delete", interest(epoll, DELETE, ends[0], 0, 0));
    show_events("deleted", epoll);
    close(ends[0]);
    pipe2(ends, 0);
    interest(epoll, ADD, ends[1], OUT, 9);
    close(ends[0]);
    show_events("no reader", epoll);
    interest(epoll, CHANGE, ends[1], 0, 10);
    show_events("no reader, unasked", epoll);
    return 0;
}
