// Calls that wait, and a signal that comes meanwhile: which begin again after the handler, and which answer EINTR or what
// they have done.
#include "signals.h"
#include "threads.h"

static struct thread thread;
static i32 ends[2];
static u32 word, times, done;
static volatile i64 result;
static volatile u64 flags;

static void note(i32 signal, struct info *info, struct context *context) { fetch_add(&times, 1); }

static i64 in_futex(u64 timed)
{
    struct time length = {100000, 0};
    result = futex(&word, FUTEX_WAIT | FUTEX_PRIVATE, 0, timed ? (u64)&length : 0, 0, 0);
    store(&done, 1);
    return 0;
}

static i64 in_read(u64 count)
{
    static u8 bytes[100];
    struct vector vector = {bytes, 10};
    result = count == 0 ? readv(ends[0], &vector, 1) : read(ends[0], bytes, count);
    store(&done, 1);
    return 0;
}

static i64 in_write(u64 count)
{
    result = write(ends[1], (void *)new_pages(count), count);
    store(&done, 1);
    return 0;
}

static i64 in_counter(u64 n)
{
    u64 value;
    i64 counter = eventfd2(0, 0);
    result = read(counter, &value, 8);
    close(counter);
    store(&done, 1);
    return 0;
}

static i64 in_sleep(u64 n)
{
    struct time length = {100000, 5000}, rest = {-1, -1};
    result = nanosleep(&length, &rest);
    if (rest.seconds < 0 || rest.seconds > 100000 || rest.nanoseconds < 0 || rest.nanoseconds > 999999999)
        result = -1;
    store(&done, 1);
    return 0;
}

static i64 in_epoll(u64 timeout)
{
    u8 events[16];
    i64 epoll = system_call(20, 0, 0, 0, 0, 0, 0);
    result = system_call(22, epoll, (u64)events, 1, timeout, 0, 8);
    close(epoll);
    store(&done, 1);
    return 0;
}

static void begin_call(i64 (*function)(u64), u64 n)
{
    handle(SIGUSR1, note, flags, 0);
    store(&times, 0);
    store(&done, 0);
    start(&thread, function, n);
}

static void show_end(const char *name)
{
    join(&thread);
    text(name);
    text(flags ? " with a handler that asks to begin again" : "");
    answer("", result);
}

// A thread that waits at the word is signalled, and ends its wait.
static void show_interrupted_wait(const char *name, u64 timed)
{
    begin_call(in_futex, timed);
    await_waiters(&word, 1);
    tgkill(getpid(), thread.tid, SIGUSR1);
    show_end(name);
    line("times", times);
    line("waiters", waiters(&word));
}

// The thread is signalled until its call ends: it may not wait yet when a signal comes.
static void show_interrupted(const char *name, i64 (*function)(u64), u64 n)
{
    begin_call(function, n);
    while (!load(&done)) {
        tgkill(getpid(), thread.tid, SIGUSR1);
        sched_yield();
    }
    show_end(name);
}

// The thread is signalled five times, and its call begins again.
static void signal_often(void)
{
    for (u32 n = 1; n <= 5; n++) {
        tgkill(getpid(), thread.tid, SIGUSR1);
        await(&times, n);
    }
}

int guest(int count, char **arguments)
{
    static u8 buffer[PIPE_ROOM];
    pipe2(ends, 0);
    for (flags = 0; flags <= SA_RESTART; flags += SA_RESTART) {
        show_interrupted_wait("a wait with a timeout", 1);
        show_interrupted("sleep", in_sleep, 0);
        show_interrupted("epoll", in_epoll, -1);
        show_interrupted("epoll with a timeout", in_epoll, 1000000000);

        // A write that has moved bytes answers how many.
        write(ends[1], buffer, 8192);
        show_interrupted("a long write", in_write, 60000);
        for (u64 left = PIPE_ROOM; left > 0;) {
            i64 moved = read(ends[0], buffer, left);
            if (moved <= 0)
                return 1;
            left -= moved;
        }
    }

    flags = 0;
    show_interrupted_wait("a wait", 0);
    show_interrupted("read", in_read, 5);
    show_interrupted("readv", in_read, 0);
    show_interrupted("read of a counter", in_counter, 0);
    write(ends[1], buffer, PIPE_ROOM);
    show_interrupted("write", in_write, 10);
    for (u64 left = PIPE_ROOM; left > 0;)
        left -= read(ends[0], buffer, left);

    flags = SA_RESTART;
    begin_call(in_futex, 0);
    for (u32 n = 1; n <= 5; n++) {
        await_waiters(&word, 1);
        tgkill(getpid(), thread.tid, SIGUSR1);
        await(&times, n);
    }
    await_waiters(&word, 1);
    answer("wake", wake_at(&word, 1));
    show_end("a wait");
    begin_call(in_read, 5);
    signal_often();
    write(ends[1], "abcde", 5);
    show_end("read");
    begin_call(in_read, 0);
    signal_often();
    write(ends[1], "fgh", 3);
    show_end("readv");
    write(ends[1], buffer, PIPE_ROOM);
    begin_call(in_write, 10);
    signal_often();
    for (u64 left = PIPE_ROOM; left > 0;)
        left -= read(ends[0], buffer, left);
    show_end("write");
    answer("read", read(ends[0], buffer, 100));
    return 0;
}
