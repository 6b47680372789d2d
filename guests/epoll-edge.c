// Epoll by edge: what holds is told once, and again after each change at the other end.
#include "epolls.h"

static u8 buffer[PIPE_ROOM];

static void add_to(i64 counter, u64 value) { write(counter, &value, 8); }

int guest(int count, char **arguments)
{
    i32 ends[2];
    u64 value;
    i64 epoll = epoll_create1(CLOSE_ON_EXEC), counter = eventfd2(0, 0);
    pipe2(ends, 0);
    write(ends[1], "ab", 2);
    answer("add", interest(epoll, ADD, ends[0], IN | EDGE, 1));
    show_events("bytes were there", epoll);
    show_events("and again", epoll);
    read(ends[0], buffer, 1);
    show_events("after a read", epoll);
    write(ends[1], "cd", 2);
    show_events("after a write", epoll);
    show_events("and again", epoll);
    write(ends[1], "e", 1);
    write(ends[1], "f", 1);
    show_events("after two writes", epoll);
    show_events("and again", epoll);
    read(ends[0], buffer, 100);
    show_events("after a read of all", epoll);
    write(ends[1], "g", 1);
    read(ends[0], buffer, 100);
    show_events("after a write and a read of all", epoll);
    write(ends[1], "h", 1);
    show_events("after a write", epoll);
    answer("change", interest(epoll, CHANGE, ends[0], IN | EDGE, 2));
    show_events("after a change", epoll);
    show_events("and again", epoll);
    read(ends[0], buffer, 100);

    answer("add", interest(epoll, ADD, ends[1], OUT | EDGE, 3));
    show_events("the write end", epoll);
    show_events("and again", epoll);
    write(ends[1], buffer, PIPE_ROOM);
    show_events("after a write of all", epoll);
    read(ends[0], buffer, 8192);
    show_events("after a read", epoll);
    show_events("and again", epoll);
    close(ends[1]);
    show_events("after the writer's close", epoll);
    show_events("and again", epoll);
    close(ends[0]);

    pipe2(ends, 0);
    interest(epoll, ADD, ends[1], OUT | EDGE, 4);
    show_events("another write end", epoll);
    close(ends[0]);
    show_events("after the reader's close", epoll);
    show_events("and again", epoll);
    close(ends[1]);

    interest(epoll, ADD, counter, IN | EDGE, 5);
    show_events("a counter at 0", epoll);
    add_to(counter, 1);
    show_events("a counter at 1", epoll);
    show_events("and again", epoll);
    add_to(counter, 1);
    show_events("a counter at 2", epoll);
    interest(epoll, CHANGE, counter, IN | OUT | EDGE, 6);
    show_events("both sides", epoll);
    show_events("and again", epoll);
    read(counter, &value, 8);
    show_events("a counter at 0", epoll);
    show_events("and again", epoll);
    add_to(counter, 3);
    show_events("a counter at 3", epoll);
    add_to(counter, 0xfffffffffffffffb);
    show_events("a counter at its end", epoll);
    read(counter, &value, 8);
    show_events("a counter at 0", epoll);
    show_events("and again", epoll);
    return 0;
}
