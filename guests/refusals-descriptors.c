// What the calls on descriptors refuse, and with which error, in the order in which they look.
#include "guest.h"

enum { CLOSED = 77 };

int guest(int count, char **arguments)
{
    i32 ends[2];
    pipe2(ends, 0);
    answer("eventfd2 with an unknown flag", eventfd2(0, 2));
    answer("eventfd2 with an unknown flag among others", eventfd2(0, NONBLOCK | CLOSE_ON_EXEC | SEMAPHORE | 0x1000));
    answer("dup of a closed one", dup(CLOSED));
    answer("dup of a negative number", dup(-1));
    answer("dup3 to the same", dup3(ends[0], ends[0], 0));
    answer("dup3 of a closed one to the same", dup3(CLOSED, CLOSED, 0));
    answer("dup3 with an unknown flag", dup3(ends[0], 10, NONBLOCK));
    answer("dup3 of a closed one with an unknown flag", dup3(CLOSED, 10, 1));
    answer("dup3 of a closed one", dup3(CLOSED, 10, 0));
    answer("dup3 to a negative number", dup3(ends[0], -1, 0));
    answer("dup3 to a great number", dup3(ends[0], 0x7fffffff, 0));
    answer("fcntl to copy a closed one", fcntl(CLOSED, F_DUPFD, 0));
    answer("fcntl to copy a closed one to a great number", fcntl(CLOSED, F_DUPFD, 0x7fffffff));
    answer("fcntl to copy to a great number", fcntl(ends[0], F_DUPFD, 0x7fffffff));
    answer("fcntl to copy with the close flag to a great number", fcntl(ends[0], F_DUPFD_CLOEXEC, 0x7fffffff));
    answer("fcntl to read the close flag of a closed one", fcntl(CLOSED, F_GETFD, 0));
    answer("fcntl to set the close flag of a closed one", fcntl(CLOSED, F_SETFD, 1));
    answer("fcntl to read the status of a closed one", fcntl(CLOSED, F_GETFL, 0));
    answer("fcntl to set the status of a closed one", fcntl(CLOSED, F_SETFL, 0));
    answer("fcntl with an unknown operation", fcntl(ends[0], 999, 0));
    answer("ioctl of a closed one", ioctl(CLOSED, TCGETS, 0));
    answer("ioctl of a pipe that asks for a terminal", ioctl(ends[0], TCGETS, 0));
    answer("close of a closed one", close(CLOSED));
    answer("close of a negative number", close(-1));
    answer("close twice", close(ends[0]) + close(ends[0]));
    answer("pipe2 with an unknown flag", pipe2(ends, 1));
    answer("pipe2 with an unknown flag among others", pipe2(ends, NONBLOCK | CLOSE_ON_EXEC | 0x40));
    answer("lseek of a closed one", lseek(CLOSED, 0, SEEK_SET));
    answer("lseek of a pipe", lseek(ends[1], 0, SEEK_SET));
    answer("lseek of a pipe from where it stands", lseek(ends[1], 1, SEEK_CUR));
    return 0;
}
