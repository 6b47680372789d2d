// exit_group of one thread ends all others, wherever they are: at work, in waits without end, asleep and in a read.
#include "threads.h"

static struct thread threads[6];
static u32 nobody, never, there;
static i32 ends[2];

static i64 at_work(u64 n)
{
    fetch_add(&there, 1);
    for (;;)
        fetch_add(&nobody, 1);
    return 0;
}

static i64 in_wait(u64 n)
{
    fetch_add(&there, 1);
    wait_at(&never, 0);
    text("woken\n");
    return 0;
}

static i64 asleep(u64 n)
{
    struct time length = {1000000, 0};
    fetch_add(&there, 1);
    for (;;)
        nanosleep(&length, 0);
    return 0;
}

static i64 in_read(u64 n)
{
    u8 byte;
    fetch_add(&there, 1);
    read(ends[0], &byte, 1);
    text("read\n");
    return 0;
}

static i64 at_end(u64 n)
{
    await(&there, 5);
    await_waiters(&never, 2);
    text("all are there\n");
    exit_group(300);
    text("after the end\n");
    return 0;
}

int guest(int count, char **arguments)
{
    pipe2(ends, 0);
    start(&threads[0], at_work, 0);
    start(&threads[1], in_wait, 1);
    start(&threads[2], asleep, 2);
    start(&threads[3], in_read, 3);
    start(&threads[4], at_work, 4);
    start(&threads[5], at_end, 5);
    wait_at(&never, 0);
    text("woken\n");
    return 0;
}
