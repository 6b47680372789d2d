// A pipe that is full, and whose ends don't wait: writes of at most 4096 bytes go in whole or not at all, and longer ones
// as far as there is room.
#include "guest.h"

static char buffer[2 * PIPE_ROOM];

int guest(int count, char **arguments)
{
    i32 ends[2];
    u32 blocks = 0;
    i64 moved;
    pipe2(ends, NONBLOCK);
    answer("read of an empty pipe", read(ends[0], buffer, 10));
    answer("read of no bytes", read(ends[0], buffer, 0));
    while ((moved = write(ends[1], buffer, 4096)) == 4096)
        blocks++;
    line("blocks of 4096", blocks);
    answer("the next block", moved);
    answer("one more byte", write(ends[1], buffer, 1));
    answer("no more bytes", write(ends[1], buffer, 0));
    answer("a room of bytes", write(ends[1], buffer, PIPE_ROOM));
    answer("read of a block", read(ends[0], buffer, 4096));
    answer("8192 bytes", write(ends[1], buffer, 8192));
    answer("8192 bytes again", write(ends[1], buffer, 8192));
    answer("read of four blocks", read(ends[0], buffer, 4 * 4096));
    for (u32 at = 0; at < 4; at++)
        answer("a block", write(ends[1], buffer, 4096));
    answer("a block", write(ends[1], buffer, 4096));
    answer("read of all", read(ends[0], buffer, sizeof buffer));
    answer("read of an empty pipe", read(ends[0], buffer, 1));
    answer("two rooms of bytes", write(ends[1], buffer, sizeof buffer));
    answer("read of all", read(ends[0], buffer, PIPE_ROOM));
    answer("close of the write end", close(ends[1]));
    answer("read at the end", read(ends[0], buffer, 1));
    return 0;
}
