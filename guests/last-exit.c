// The first thread ends by exit, and the guest goes on. It ends with its last thread.
#include "threads.h"

static struct thread other;
static u32 first = 1;

static i64 work(u64 n)
{
    u32 seen;
    while ((seen = load(&first)) != 0)
        futex(&first, FUTEX_WAIT, seen, 0, 0, 0);
    text("the first thread has ended\n");
    for (u64 i = 0; i < 50; i++)
        sched_yield();
    text("the last thread ends\n");
    return 0x109;
}

int guest(int count, char **arguments)
{
    set_tid_address((u64)&first);
    start(&other, work, 0);
    text("the first thread ends\n");
    exit(9);
    text("after the end\n");
    return 1;
}
