// What the guests in C share: calls to the system by SVC, printing through write, and the start. There is no C library.
#pragma once

typedef unsigned char u8;
typedef unsigned short u16;
typedef unsigned int u32;
typedef unsigned long u64;
typedef signed char i8;
typedef short i16;
typedef int i32;
typedef long i64;
typedef unsigned __int128 u128;
typedef __int128 i128;

#define COUNT(array) (sizeof(array) / sizeof((array)[0]))

// The guest itself. What it answers is its status.
int guest(int count, char **arguments);

// ---- calls

static inline i64 system_call(u64 number, u64 a, u64 b, u64 c, u64 d, u64 e, u64 f)
{
    register u64 x8 asm("x8") = number;
    register u64 x0 asm("x0") = a;
    register u64 x1 asm("x1") = b;
    register u64 x2 asm("x2") = c;
    register u64 x3 asm("x3") = d;
    register u64 x4 asm("x4") = e;
    register u64 x5 asm("x5") = f;
    asm volatile("svc #0" : "+r"(x0) : "r"(x1), "r"(x2), "r"(x3), "r"(x4), "r"(x5), "r"(x8) : "memory");
    return (i64)x0;
}

#define CALL0(name, number)                                                                                            \
    static inline i64 name(void) { return system_call(number, 0, 0, 0, 0, 0, 0); }
#define CALL1(name, number)                                                                                            \
    static inline i64 name(u64 a) { return system_call(number, a, 0, 0, 0, 0, 0); }
#define CALL2(name, number)                                                                                            \
    static inline i64 name(u64 a, u64 b) { return system_call(number, a, b, 0, 0, 0, 0); }
#define CALL3(name, number)                                                                                            \
    static inline i64 name(u64 a, u64 b, u64 c) { return system_call(number, a, b, c, 0, 0, 0); }

CALL2(eventfd2, 19)
CALL1(dup, 23)
CALL3(dup3, 24)
CALL3(fcntl, 25)
CALL3(ioctl, 29)
CALL1(close, 57)
CALL2(pipe2_at, 59)
CALL3(lseek, 62)
CALL3(read_at, 63)
CALL3(write_at, 64)
CALL3(readv_at, 65)
CALL3(writev_at, 66)
CALL1(exit, 93)
CALL1(exit_group, 94)
CALL1(set_tid_address, 96)
CALL0(sched_yield, 124)
CALL1(uname, 160)
CALL0(getpid, 172)
CALL0(getppid, 173)
CALL0(getuid, 174)
CALL0(geteuid, 175)
CALL0(getgid, 176)
CALL0(getegid, 177)
CALL0(gettid, 178)
CALL1(brk, 214)
CALL2(munmap, 215)
CALL3(mprotect, 226)
CALL3(madvise, 233)

static inline i64 mmap(u64 at, u64 length, u64 rights, u64 flags, u64 descriptor, u64 offset)
{
    return system_call(222, at, length, rights, flags, descriptor, offset);
}

static inline i64 no_such_call(void) { return system_call(999, 0, 0, 0, 0, 0, 0); }

// An address and a length of readv and writev.
struct vector {
    const void *at;
    u64 length;
};

static inline i64 pipe2(i32 *ends, u64 flags) { return pipe2_at((u64)ends, flags); }
static inline i64 read(u64 descriptor, void *at, u64 count) { return read_at(descriptor, (u64)at, count); }
static inline i64 write(u64 descriptor, const void *at, u64 count) { return write_at(descriptor, (u64)at, count); }
static inline i64 readv(u64 descriptor, struct vector *at, u64 count) { return readv_at(descriptor, (u64)at, count); }
static inline i64 writev(u64 descriptor, struct vector *at, u64 count) { return writev_at(descriptor, (u64)at, count); }

// A time or a length of time.
struct time {
    i64 seconds, nanoseconds;
};

static inline i64 clock_gettime(u64 clock, void *at) { return system_call(113, clock, (u64)at, 0, 0, 0, 0); }
static inline i64 nanosleep(const void *length, void *rest)
{
    return system_call(101, (u64)length, (u64)rest, 0, 0, 0, 0);
}

// The time of the clock that never goes back, in nanoseconds.
static inline u64 now(void)
{
    struct time time = {};
    clock_gettime(1, &time);
    return time.seconds * 1000000000 + time.nanoseconds;
}

// The timeout's place has a count for the operations that move or wake waiters of a second word.
static inline i64 futex(const void *at, u64 operation, u64 value, u64 timeout, const void *second, u64 value3)
{
    return system_call(98, (u64)at, operation, value, timeout, (u64)second, value3);
}

enum {
    FUTEX_WAIT = 0,
    FUTEX_WAKE = 1,
    FUTEX_REQUEUE = 3,
    FUTEX_CMP_REQUEUE = 4,
    FUTEX_WAKE_OP = 5,
    FUTEX_WAIT_BITSET = 9,
    FUTEX_WAKE_BITSET = 10,
    FUTEX_PRIVATE = 128,
    FUTEX_REAL_TIME = 256,
    ALL = 0x7fffffff,
};

// Flags and choices of the calls.
enum {
    NONBLOCK = 0x800,
    CLOSE_ON_EXEC = 0x80000,
    SEMAPHORE = 1,
    F_DUPFD = 0,
    F_GETFD = 1,
    F_SETFD = 2,
    F_GETFL = 3,
    F_SETFL = 4,
    F_DUPFD_CLOEXEC = 1030,
    TCGETS = 0x5401,
    SEEK_SET = 0,
    SEEK_CUR = 1,
    RIGHT_READ = 1,
    RIGHT_WRITE = 2,
    MAP_SHARED = 1,
    MAP_PRIVATE = 2,
    MAP_FIXED = 0x10,
    MAP_ANONYMOUS = 0x20,
    MADV_WILLNEED = 3,
    MADV_DONTNEED = 4,
    PAGE = 4096,
    PIPE_ROOM = 65536,
};

// New pages that can be read and written.
static inline i64 new_pages(u64 length)
{
    return mmap(0, length, RIGHT_READ | RIGHT_WRITE, MAP_PRIVATE | MAP_ANONYMOUS, -1, 0);
}

// ---- bytes. The compiler calls these four itself.

__attribute__((used)) static void *memcpy(void *to, const void *from, u64 count)
{
    for (u64 at = 0; at < count; at++)
        ((u8 *)to)[at] = ((const u8 *)from)[at];
    return to;
}

__attribute__((used)) static void *memmove(void *to, const void *from, u64 count)
{
    if ((u64)to <= (u64)from)
        return memcpy(to, from, count);
    for (u64 at = count; at > 0; at--)
        ((u8 *)to)[at - 1] = ((const u8 *)from)[at - 1];
    return to;
}

__attribute__((used)) static void *memset(void *to, int value, u64 count)
{
    for (u64 at = 0; at < count; at++)
        ((u8 *)to)[at] = (u8)value;
    return to;
}

__attribute__((used)) static int memcmp(const void *one, const void *other, u64 count)
{
    for (u64 at = 0; at < count; at++)
        if (((const u8 *)one)[at] != ((const u8 *)other)[at])
            return ((const u8 *)one)[at] - ((const u8 *)other)[at];
    return 0;
}

static inline u64 length_of(const char *text)
{
    u64 length = 0;
    while (text[length] != 0)
        length++;
    return length;
}

// ---- printing

// Writes all of these bytes to standard output. A write may move fewer than it is given.
static inline void put(const void *bytes, u64 count)
{
    const u8 *at = bytes;
    while (count > 0) {
        i64 moved = write(1, at, count);
        if (moved <= 0)
            exit_group(99);
        at += moved;
        count -= moved;
    }
}

static inline void text(const char *words) { put(words, length_of(words)); }

// A number in a base of at most 16, with at least so many digits.
static inline void digits(u64 number, u64 base, u64 least)
{
    char buffer[64];
    u64 at = sizeof buffer;
    while (number > 0 || sizeof buffer - at < least || at == sizeof buffer) {
        buffer[--at] = "0123456789abcdef"[number % base];
        number /= base;
    }
    put(buffer + at, sizeof buffer - at);
}

static inline void number(i64 n)
{
    if (n < 0)
        text("-");
    digits(n < 0 ? -(u64)n : (u64)n, 10, 1);
}

static inline void hex(u64 n) { digits(n, 16, 1); }

// A line with a name and a number.
static inline void line(const char *name, i64 n)
{
    text(name);
    text(": ");
    number(n);
    text("\n");
}

static inline void hex_line(const char *name, u64 n)
{
    text(name);
    text(": ");
    hex(n);
    text("\n");
}

// A line with a name and `yes` or `no`.
static inline void truth(const char *name, int holds)
{
    text(name);
    text(holds ? ": yes\n" : ": no\n");
}

static inline const char *error_name(i64 error)
{
    switch (error) {
    case 1: return "EPERM";
    case 2: return "ENOENT";
    case 3: return "ESRCH";
    case 4: return "EINTR";
    case 9: return "EBADF";
    case 11: return "EAGAIN";
    case 12: return "ENOMEM";
    case 13: return "EACCES";
    case 14: return "EFAULT";
    case 17: return "EEXIST";
    case 19: return "ENODEV";
    case 22: return "EINVAL";
    case 23: return "ENFILE";
    case 24: return "EMFILE";
    case 25: return "ENOTTY";
    case 28: return "ENOSPC";
    case 29: return "ESPIPE";
    case 32: return "EPIPE";
    case 35: return "EDEADLK";
    case 38: return "ENOSYS";
    case 40: return "ELOOP";
    case 110: return "ETIMEDOUT";
    default: return 0;
    }
}

// A line with a name and what a call has answered: a number, or the name of its error.
static inline void answer(const char *name, i64 result)
{
    const char *error = result < 0 ? error_name(-result) : 0;
    text(name);
    text(": ");
    if (error)
        text(error);
    else
        number(result);
    text("\n");
}

// The same, for a call whose answer is an address.
static inline void address_answer(const char *name, i64 result)
{
    if (result < 0 && result >= -4095)
        answer(name, result);
    else {
        text(name);
        text(": an address\n");
    }
}

// ---- the start

asm(".globl _start\n"
    "_start:\n"
    "    mov x29, #0\n"
    "    mov x30, #0\n"
    "    mov x0, sp\n"
    "    b begin\n");

__attribute__((used, noreturn)) static void begin(u64 *stack)
{
    exit_group(guest((int)stack[0], (char **)(stack + 1)));
    __builtin_unreachable();
}
