// Epoll interests that are told once, and then rest until they are changed.
#include "epolls.h"

static u8 buffer[100];

int guest(int count, char **arguments)
{
    i32 ends[2], second[2];
    i64 epoll = epoll_create1(0);
    pipe2(ends, 0);
    pipe2(second, 0);
    answer("add", interest(epoll, ADD, ends[0], IN | ONE_SHOT, 1));
    answer("add", interest(epoll, ADD, second[0], IN, 2));
    show_events("nothing yet", epoll);
    write(ends[1], "a", 1);
    write(second[1], "a", 1);
    show_events("both", epoll);
    show_events("the other alone", epoll);
    write(ends[1], "b", 1);
    show_events("after a write", epoll);
    read(ends[0], buffer, 1);
    answer("change", interest(epoll, CHANGE, ends[0], IN | ONE_SHOT, 3));
    show_events("after a change", epoll);
    show_events("and again", epoll);
    answer("change to edge", interest(epoll, CHANGE, ends[0], IN | ONE_SHOT | EDGE, 4));
    show_events("by edge", epoll);
    write(ends[1], "c", 1);
    show_events("after a write", epoll);
    answer("change to level", interest(epoll, CHANGE, ends[0], IN, 5));
    show_events("by level", epoll);
    show_events("and again", epoll);
    answer("change", interest(epoll, CHANGE, ends[0], IN | ONE_SHOT, 6));
    read(ends[0], buffer, 100);
    read(second[0], buffer, 100);
    show_events("nothing is there", epoll);
    write(ends[1], "d", 1);
    show_events("after a write", epoll);
    close(ends[1]);
    show_events("after the writer's close", epoll);
    answer("change", interest(epoll, CHANGE, ends[0], ONE_SHOT, 7));
    show_events("unasked", epoll);
    show_events("and again", epoll);
    answer("delete", interest(epoll, DELETE, ends[0], 0, 0));
    answer("add", interest(epoll, ADD, ends[0], IN | ONE_SHOT, 8));
    show_events("after deletion and addition", epoll);
    show_events("and again", epoll);
    return 0;
}
