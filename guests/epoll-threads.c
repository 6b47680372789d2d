// Four threads wait at one epoll. An interest that is told once is one thread's alone until that changes it, and the end of
// the pipe is told to each.
#include "epolls.h"
#include "threads.h"

enum { THREADS = 4, BYTES = 40 };

static struct thread threads[THREADS];
static i32 ends[2];
static i64 epoll, counter;
static u32 inside, wrong, bytes, sum, ended, tokens;

static i64 work(u64 n)
{
    struct event event;
    for (;;) {
        u8 byte = 0;
        if (epoll_pwait(epoll, &event, 1, -1, 0, 8) != 1 || event.data != 1)
            fetch_add(&wrong, 1);
        if (fetch_add(&inside, 1) != 0)
            fetch_add(&wrong, 1);
        if (event.bits & IN) {
            if (read(ends[0], &byte, 1) != 1)
                fetch_add(&wrong, 1);
            fetch_add(&bytes, 1);
            fetch_add(&sum, byte);
        }
        fetch_add(&inside, -1);
        interest(epoll, CHANGE, ends[0], IN | ONE_SHOT, 1);
        if (!(event.bits & IN)) {
            fetch_add(&ended, event.bits == HUP);
            return 0;
        }
    }
}

// Takes tokens of a counter that all threads wait for at once. Who comes too late takes none.
static i64 take_tokens(u64 n)
{
    struct event event;
    u64 value;
    for (;;) {
        i64 result = epoll_pwait(epoll, &event, 1, -1, 0, 8);
        if (result != 1)
            fetch_add(&wrong, 1);
        if (event.data == 3)
            return 0;
        if (read(counter, &value, 8) == 8)
            fetch_add(&tokens, 1);
    }
}

int guest(int count, char **arguments)
{
    u64 value = BYTES;
    pipe2(ends, 0);
    epoll = epoll_create1(0);
    interest(epoll, ADD, ends[0], IN | ONE_SHOT, 1);
    for (u64 n = 0; n < THREADS; n++)
        start(&threads[n], work, n);
    for (u8 byte = 1; byte <= BYTES; byte++) {
        write(ends[1], &byte, 1);
        if (byte % 8 == 0)
            sched_yield();
    }
    close(ends[1]);
    for (u64 n = 0; n < THREADS; n++)
        join(&threads[n]);
    line("bytes", bytes);
    line("their sum", sum);
    line("threads that saw the end", ended);
    line("wrong", wrong);

    close(ends[0]);
    pipe2(ends, 0);
    counter = eventfd2(0, SEMAPHORE | NONBLOCK);
    interest(epoll, ADD, counter, IN, 2);
    for (u64 n = 0; n < THREADS; n++)
        start(&threads[n], take_tokens, n);
    write(counter, &value, 8);
    await(&tokens, BYTES);
    interest(epoll, ADD, ends[1], OUT, 3);
    for (u64 n = 0; n < THREADS; n++)
        join(&threads[n]);
    line("tokens", tokens);
    line("wrong", wrong);
    return 0;
}
