// All 256 descriptors in use: what still goes, and what is refused. The limit of open files has to be 256 for it.
#include "guest.h"

int guest(int count, char **arguments)
{
    i32 ends[2] = {-1, -1};
    i64 last = 0, made;
    u64 value = 1;
    while ((made = dup(0)) >= 0)
        last = made;
    line("the last descriptor", last);
    answer("dup", made);
    answer("fcntl to copy", fcntl(0, F_DUPFD, 0));
    answer("fcntl to copy from 255 on", fcntl(0, F_DUPFD, 255));
    answer("fcntl to copy from 256 on", fcntl(0, F_DUPFD, 256));
    answer("fcntl to copy with the close flag", fcntl(0, F_DUPFD_CLOEXEC, 3));
    answer("eventfd2", eventfd2(0, 0));
    answer("pipe2", pipe2(ends, 0));
    answer("dup3 to 255", dup3(1, 255, 0));
    answer("dup3 to 256", dup3(1, 256, 0));
    answer("close of 100", close(100));
    answer("pipe2 with one free number", pipe2(ends, 0));
    line("nothing was stored", ends[0]);
    answer("eventfd2 with one free number", eventfd2(7, 0));
    answer("read from it", read(100, &value, 8));
    line("its value", value);
    answer("close of 200 and 50", close(200) + close(50));
    answer("pipe2 with two free numbers", pipe2(ends, 0));
    line("the read end", ends[0]);
    line("the write end", ends[1]);
    answer("dup", dup(1));
    return 0;
}
