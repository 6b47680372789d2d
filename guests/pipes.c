// Pipes: bytes come out in the order in which they went in, a read takes what is there, and the end comes when the last
// write end is closed.
#include "guest.h"

static char buffer[PIPE_ROOM];

static void show(i64 moved)
{
    answer("read", moved);
    if (moved > 0) {
        put(buffer, moved);
        text("\n");
    }
}

int guest(int count, char **arguments)
{
    i32 ends[2], second[2];
    i64 moved;
    u64 is_same = 1;
    answer("pipe2", pipe2(ends, 0));
    line("the read end", ends[0]);
    line("the write end", ends[1]);
    answer("write", write(ends[1], "one,", 4));
    answer("write", write(ends[1], "two,", 4));
    answer("write of no bytes", write(ends[1], "three", 0));
    show(read(ends[0], buffer, 6));
    answer("write", write(ends[1], "four", 4));
    answer("read of no bytes", read(ends[0], buffer, 0));
    show(read(ends[0], buffer, sizeof buffer));

    answer("write of a whole room", write(ends[1], buffer, sizeof buffer));
    moved = read(ends[0], buffer, sizeof buffer);
    answer("read of a whole room", moved);

    // Through two pipes, in blocks of another size each time.
    answer("pipe2", pipe2(second, 0));
    for (u32 at = 0; at < sizeof buffer; at++)
        buffer[at] = (char)(at ^ at >> 8);
    for (u32 at = 0; at < 32768; at += 2048)
        write(ends[1], buffer + at, 2048);
    memset(buffer, 0, 32768);
    for (u32 left = 32768; left > 0; left -= moved) {
        char block[3000];
        moved = read(ends[0], block, sizeof block);
        if (moved <= 0 || write(second[1], block, moved) != moved)
            return 1;
    }
    for (u32 at = 0; at < 32768; at += moved) {
        moved = read(second[0], buffer + at, 5000);
        if (moved <= 0)
            return 1;
    }
    for (u32 at = 0; at < 32768; at++)
        is_same &= buffer[at] == (char)(at ^ at >> 8);
    truth("the bytes are the same", is_same);

    // The end comes after the bytes, when no descriptor of the write end is left.
    i64 other = dup(second[1]);
    answer("write to a copy of the write end", write(other, "last", 4));
    answer("close of the write end", close(second[1]));
    answer("write to the copy", write(other, " bytes", 6));
    answer("close of the copy", close(other));
    show(read(second[0], buffer, 7));
    show(read(second[0], buffer, 7));
    show(read(second[0], buffer, 7));
    show(read(second[0], buffer, 7));
    answer("close of the read end", close(second[0]));

    // A pipe whose reader has gone away is gone with its writer, and the numbers are free again.
    answer("close of the first read end", close(ends[0]));
    answer("close of the first write end", close(ends[1]));
    answer("pipe2", pipe2(ends, 0));
    line("the read end", ends[0]);
    line("the write end", ends[1]);
    return 0;
}
