// What the guests with signals share: the calls, and what a handler is given.
#pragma once
#include "guest.h"

enum {
    SIGHUP = 1,
    SIGINT = 2,
    SIGILL = 4,
    SIGTRAP = 5,
    SIGBUS = 7,
    SIGKILL = 9,
    SIGUSR1 = 10,
    SIGSEGV = 11,
    SIGUSR2 = 12,
    SIGPIPE = 13,
    SIGTERM = 15,
    SIGCHLD = 17,
    SIGSTOP = 19,
    SIGWINCH = 28,
    TO_BLOCK = 0,
    TO_UNBLOCK = 1,
    TO_SET = 2,
    TO_DEFAULT = 0,
    TO_IGNORE = 1,
    SA_SIGINFO = 4,
    SA_RESTORER = 0x04000000,
    SA_ONSTACK = 0x08000000,
    SA_RESTART = 0x10000000,
    SA_NODEFER = 0x40000000,
    SA_RESETHAND = 0x80000000,
    ON_STACK = 1,
    STACK_DISABLED = 2,
};

// The set with one signal.
#define ONLY(signal) (1UL << ((signal)-1))

struct info {
    i32 signal, error, code, unused;
    union {
        struct {
            i32 pid;
            u32 uid;
        };
        u64 address;
    };
    u64 rest[13];
};

struct signal_stack {
    u64 at;
    i32 flags;
    u64 size;
};

struct context {
    u64 flags, link;
    struct signal_stack stack;
    u64 mask;
    u8 unused[128];
    u64 fault_address, registers[31], sp, pc, pstate;
};

typedef void handler(i32 signal, struct info *info, struct context *context);

struct action {
    u64 handler, flags, restorer, mask;
};

static inline i64 kill(i64 pid, u64 signal) { return system_call(129, pid, signal, 0, 0, 0, 0); }
static inline i64 tkill(i64 tid, u64 signal) { return system_call(130, tid, signal, 0, 0, 0, 0); }
static inline i64 tgkill(i64 pid, i64 tid, u64 signal) { return system_call(131, pid, tid, signal, 0, 0, 0); }
static inline i64 sigaltstack(const void *new, void *old) { return system_call(132, (u64)new, (u64)old, 0, 0, 0, 0); }
static inline i64 sigsuspend(const void *set, u64 size) { return system_call(133, (u64)set, size, 0, 0, 0, 0); }
static inline i64 sigaction(u64 signal, const void *new, void *old, u64 size)
{
    return system_call(134, signal, (u64)new, (u64)old, size, 0, 0);
}
static inline i64 sigprocmask(u64 how, const void *set, void *old, u64 size)
{
    return system_call(135, how, (u64)set, (u64)old, size, 0, 0);
}
static inline i64 sigpending(void *out, u64 size) { return system_call(136, (u64)out, size, 0, 0, 0, 0); }

// Sets what a signal does. The way back from the handler is the system's own.
static inline i64 set_action(u64 signal, u64 does, u64 flags, u64 mask)
{
    struct action action = {does, flags, 0, mask};
    return sigaction(signal, &action, 0, 8);
}

// Sets a handler.
static inline void handle(u64 signal, handler *function, u64 flags, u64 mask)
{
    if (set_action(signal, (u64)function, SA_SIGINFO | flags, mask) != 0)
        exit_group(97);
}

// The mask of blocked signals.
static inline u64 mask(void)
{
    u64 old = 0;
    sigprocmask(TO_BLOCK, 0, &old, 8);
    return old;
}

static inline i64 change_mask(u64 how, u64 set) { return sigprocmask(how, &set, 0, 8); }

static inline u64 pending(void)
{
    u64 set = 0;
    sigpending(&set, 8);
    return set;
}

// Sends a signal to the thread itself.
static inline i64 raise(u64 signal) { return tgkill(getpid(), gettid(), signal); }
