// Six threads write lines into one pipe. A line is never broken by another, and the lines of each come in their order.
#include "threads.h"

enum { THREADS = 6, LINES = 25, LENGTH = 40 };

static struct thread threads[THREADS];
static i32 ends[2];
static u32 left = THREADS;

// A line is the thread's letter, the line's letter, and then its own letter again up to the end.
static i64 write_lines(u64 n)
{
    u8 bytes[LENGTH];
    struct vector vectors[2] = {{bytes, 7}, {bytes + 7, LENGTH - 7}};
    for (u64 i = 0; i < LINES; i++) {
        memset(bytes, 'a' + n, LENGTH);
        bytes[1] = 'A' + i;
        if (i % 2 == 0)
            write(ends[1], bytes, LENGTH);
        else
            writev(ends[1], vectors, 2);
    }
    if (fetch_add(&left, -1) == 1)
        close(ends[1]);
    return 0;
}

int guest(int count, char **arguments)
{
    static u8 buffer[THREADS * LINES * LENGTH + 1];
    u64 length = 0, broken = 0, disordered = 0, lines[THREADS] = {};
    i64 moved;
    pipe2(ends, 0);
    for (u64 n = 0; n < THREADS; n++)
        start(&threads[n], write_lines, n);
    while ((moved = read(ends[0], buffer + length, 333 < sizeof buffer - length ? 333 : sizeof buffer - length)) > 0)
        length += moved;
    for (u64 n = 0; n < THREADS; n++)
        join(&threads[n]);
    for (u64 at = 0; at + LENGTH <= length; at += LENGTH) {
        u64 n = buffer[at] - 'a';
        if (n >= THREADS)
            return 1;
        for (u64 i = 2; i < LENGTH; i++)
            broken += buffer[at + i] != buffer[at];
        disordered += buffer[at + 1] != 'A' + lines[n]++;
    }
    line("bytes", length);
    line("broken", broken);
    line("out of order", disordered);
    for (u64 n = 0; n < THREADS; n++)
        line("lines", lines[n]);
    return 0;
}
