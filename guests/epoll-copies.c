// Copies and closed descriptors in an epoll: an interest is one of a descriptor's number and its open file, and lives as
// long as the open file.
#include "epolls.h"

static u8 buffer[100];

int guest(int count, char **arguments)
{
    i32 ends[2], second[2];
    i64 epoll = epoll_create1(0), other = epoll_create1(0), copy, third, epoll_copy;
    pipe2(ends, 0);
    copy = dup(ends[0]);
    answer("add", interest(epoll, ADD, ends[0], IN, 1));
    answer("add again", interest(epoll, ADD, ends[0], IN, 2));
    answer("add the copy", interest(epoll, ADD, copy, IN, 2));
    answer("add to the other epoll", interest(other, ADD, copy, IN, 3));
    write(ends[1], "a", 1);
    show_events("both", epoll);
    show_events("the other epoll", other);
    answer("delete the copy", interest(epoll, DELETE, copy, 0, 0));
    show_events("the first", epoll);
    answer("delete it again", interest(epoll, DELETE, copy, 0, 0));

    // The open file lives by the copy.
    answer("close", close(ends[0]));
    show_events("it is told still", epoll);
    answer("delete by the closed number", interest(epoll, DELETE, ends[0], 0, 0));
    answer("change of the copy", interest(epoll, CHANGE, copy, IN, 5));
    pipe2(second, 0);
    truth("the number is that of another file", second[0] == ends[0]);
    answer("delete by the number of another file", interest(epoll, DELETE, second[0], 0, 0));
    answer("add of another file by the same number", interest(epoll, ADD, second[0], IN, 6));
    write(second[1], "b", 1);
    show_events("both files", epoll);
    third = fcntl(copy, F_DUPFD, 50);
    answer("close of the copy", close(copy));
    show_events("by another copy", epoll);
    show_events("the other epoll", other);
    answer("close of the last copy", close(third));
    show_events("the second alone", epoll);
    show_events("the other epoll", other);

    // What is closed by dup3 is gone too.
    answer("dup3", dup3(ends[1], second[0], 0));
    show_events("nothing", epoll);
    epoll_copy = dup(epoll);
    answer("add through a copy of the epoll", interest(epoll_copy, ADD, second[1], OUT, 7));
    show_events("no reader", epoll);
    answer("close of the epoll", close(epoll));
    show_events("through the copy", epoll_copy);
    answer("the closed one", epoll_pwait(epoll, buffer, 1, 0, 0, 8));
    return 0;
}
