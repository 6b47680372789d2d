// Descriptors: copies by dup, dup3 and fcntl, the lowest free number, and which flags belong to a descriptor and which to
// its open file.
#include "guest.h"

static char buffer[100];

static void show_flags(const char *name, u64 descriptor)
{
    text(name);
    text(": close flag ");
    number(fcntl(descriptor, F_GETFD, 0));
    text(", status ");
    hex(fcntl(descriptor, F_GETFL, 0));
    text("\n");
}

int guest(int count, char **arguments)
{
    i32 ends[2];
    i64 a, b;
    pipe2(ends, CLOSE_ON_EXEC);
    show_flags("the read end", ends[0]);
    show_flags("the write end", ends[1]);
    a = dup(ends[0]);
    answer("dup", a);
    show_flags("the copy", a);
    answer("set nonblocking at the copy", fcntl(a, F_SETFL, NONBLOCK));
    show_flags("the read end", ends[0]);
    show_flags("the write end", ends[1]);
    answer("set the close flag at the copy", fcntl(a, F_SETFD, 1));
    answer("clear it at the read end", fcntl(ends[0], F_SETFD, 0));
    show_flags("the copy", a);
    show_flags("the read end", ends[0]);
    answer("set waiting at the read end", fcntl(ends[0], F_SETFL, 0));
    show_flags("the copy", a);

    b = dup3(ends[1], 20, CLOSE_ON_EXEC);
    answer("dup3 to 20", b);
    show_flags("the copy", b);
    answer("write to 20", write(b, "through 20", 10));
    answer("read from the copy", read(a, buffer, sizeof buffer));
    answer("fcntl to copy from 10 on", fcntl(b, F_DUPFD, 10));
    answer("and again", fcntl(b, F_DUPFD, 10));
    answer("and from 20 on with the close flag", fcntl(ends[1], F_DUPFD_CLOEXEC, 20));
    show_flags("10", 10);
    show_flags("21", 21);
    answer("dup takes the lowest free number", dup(21));
    answer("close of 4", close(4));
    answer("dup", dup(21));
    answer("close of 4 and 5", close(4) + close(5));
    answer("eventfd2", eventfd2(1, 0));
    answer("dup", dup(10));

    // What a number named before is closed when dup3 gives it away: 20 and its copies were the write ends.
    answer("dup3 of the counter to 20", dup3(4, 20, 0));
    show_flags("20", 20);
    answer("write to 10", write(10, "still there", 11));
    answer("read", read(3, buffer, sizeof buffer));
    put(buffer, 11);
    text("\n");
    for (u64 descriptor = 5; descriptor < 30; descriptor++)
        if (descriptor != 20)
            close(descriptor);
    answer("read at the end, since the last write end is closed", read(3, buffer, sizeof buffer));
    answer("read from the counter at 20", read(20, buffer, 8));
    answer("close of standard error", close(2));
    answer("dup of standard output", dup(1));
    answer("write to it", write(2, "", 0));
    return 0;
}
