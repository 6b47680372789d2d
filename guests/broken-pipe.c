// A write to a pipe that nobody can read any more ends a guest by SIGPIPE, which is status 141.
#include "guest.h"

int guest(int count, char **arguments)
{
    i32 ends[2];
    i64 other;
    pipe2(ends, 0);
    other = dup(ends[0]);
    close(ends[0]);
    answer("write while a copy of the read end is open", write(ends[1], "abc", 3));
    answer("close of the copy", close(other));
    answer("write of no bytes", write(ends[1], "abc", 0));
    text("a write follows\n");
    answer("write", write(ends[1], "abc", 3));
    return 0;
}
