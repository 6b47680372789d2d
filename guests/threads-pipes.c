// Threads with pipes between them: bytes go through four threads in blocks of other sizes, full and empty pipes are waited
// for, and the end goes through too. Who waits for room where nobody reads any more is told.
#include "signals.h"
#include "threads.h"

enum { STAGES = 4, TOTAL = 12000 };

static struct thread threads[STAGES + 1];
static i32 pipes[STAGES + 1][2];
static u8 buffers[STAGES][4000];
static volatile i64 last_write;

// Moves all bytes from a pipe to the next, each greater by 1.
static i64 move(u64 n)
{
    u64 size = 300 + n * 1100;
    for (;;) {
        i64 moved = read(pipes[n][0], buffers[n], size);
        if (moved <= 0)
            break;
        for (i64 at = 0; at < moved; at++)
            buffers[n][at]++;
        for (i64 at = 0; at < moved;) {
            i64 done = write(pipes[n + 1][1], buffers[n] + at, moved - at);
            if (done <= 0)
                exit_group(1);
            at += done;
        }
    }
    close(pipes[n][0]);
    close(pipes[n + 1][1]);
    return 0;
}

static i64 give(u64 n)
{
    static u8 bytes[2000];
    for (u64 left = TOTAL; left > 0;) {
        i64 done = write(pipes[0][1], bytes, left < sizeof bytes ? left : sizeof bytes);
        if (done <= 0)
            exit_group(1);
        left -= done;
    }
    close(pipes[0][1]);
    return 0;
}

// Writes more than there is room for. The last write finds that nobody reads.
static i64 write_without_end(u64 n)
{
    static u8 bytes[3000];
    while ((last_write = write(pipes[0][1], bytes, sizeof bytes)) > 0)
        ;
    return 0;
}

int guest(int count, char **arguments)
{
    static u8 buffer[9999];
    u64 bytes = 0, others = 0;
    i64 moved;
    for (u64 n = 0; n <= STAGES; n++)
        pipe2(pipes[n], 0);
    start(&threads[STAGES], give, 0);
    for (u64 n = 0; n < STAGES; n++)
        start(&threads[n], move, n);
    while ((moved = read(pipes[STAGES][0], buffer, sizeof buffer)) > 0) {
        bytes += moved;
        for (i64 at = 0; at < moved; at++)
            others += buffer[at] != STAGES;
    }
    answer("the end", moved);
    line("bytes", bytes);
    line("bytes that went another way", others);
    for (u64 n = 0; n <= STAGES; n++)
        join(&threads[n]);

    set_action(SIGPIPE, TO_IGNORE, 0, 0);
    pipe2(pipes[0], 0);
    start(&threads[0], write_without_end, 0);
    for (u64 left = 100000; left > 0; left -= moved)
        moved = read(pipes[0][0], buffer, left < 5000 ? left : 5000);
    close(pipes[0][0]);
    join(&threads[0]);
    answer("the last write", last_write);
    return 0;
}
