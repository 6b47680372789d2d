// What the guests with threads share: atomic operations, the start of threads and the wait for their end.
#pragma once
#include "guest.h"

// ---- atomic operations on words. They answer what was there.

#ifdef EXCLUSIVES

// By pairs of an exclusive load and an exclusive store.

static inline u32 fetch_add(u32 *at, u32 n)
{
    u32 old, new, failed;
    asm volatile("1: ldaxr %w0, [%3]\n\tadd %w1, %w0, %w4\n\tstlxr %w2, %w1, [%3]\n\tcbnz %w2, 1b"
                 : "=&r"(old), "=&r"(new), "=&r"(failed)
                 : "r"(at), "r"(n)
                 : "memory");
    return old;
}

static inline u32 swap(u32 *at, u32 n)
{
    u32 old, failed;
    asm volatile("1: ldaxr %w0, [%2]\n\tstlxr %w1, %w3, [%2]\n\tcbnz %w1, 1b"
                 : "=&r"(old), "=&r"(failed)
                 : "r"(at), "r"(n)
                 : "memory");
    return old;
}

static inline u32 compare_swap(u32 *at, u32 expected, u32 n)
{
    u32 old, failed;
    asm volatile("1: ldaxr %w0, [%2]\n\tcmp %w0, %w3\n\tb.ne 2f\n\tstlxr %w1, %w4, [%2]\n\tcbnz %w1, 1b\n2:"
                 : "=&r"(old), "=&r"(failed)
                 : "r"(at), "r"(expected), "r"(n)
                 : "memory", "cc");
    return old;
}

#else

// By one instruction each.

static inline u32 fetch_add(u32 *at, u32 n)
{
    u32 old;
    asm volatile("ldaddal %w1, %w0, [%2]" : "=&r"(old) : "r"(n), "r"(at) : "memory");
    return old;
}

static inline u32 swap(u32 *at, u32 n)
{
    u32 old;
    asm volatile("swpal %w1, %w0, [%2]" : "=&r"(old) : "r"(n), "r"(at) : "memory");
    return old;
}

static inline u32 compare_swap(u32 *at, u32 expected, u32 n)
{
    asm volatile("casal %w0, %w1, [%2]" : "+&r"(expected) : "r"(n), "r"(at) : "memory");
    return expected;
}

#endif

static inline u32 load(const u32 *at)
{
    u32 n;
    asm volatile("ldar %w0, [%1]" : "=r"(n) : "r"(at) : "memory");
    return n;
}

static inline void store(u32 *at, u32 n)
{
    asm volatile("stlr %w0, [%1]" : : "r"(n), "r"(at) : "memory");
}

static inline u64 thread_pointer(void)
{
    u64 pointer;
    asm volatile("mrs %0, tpidr_el0" : "=r"(pointer));
    return pointer;
}

static inline void set_thread_pointer(u64 pointer)
{
    asm volatile("msr tpidr_el0, %0" : : "r"(pointer) : "memory");
}

// Where the new thread begins, the stack has a function and what it is given.
asm("clone_with:\n"
    "    mov x8, #220\n"
    "    svc #0\n"
    "    cbz x0, 1f\n"
    "    ret\n"
    "1:  ldp x1, x0, [sp]\n"
    "    mov x29, #0\n"
    "    mov x30, #0\n"
    "    blr x1\n"
    "    mov x8, #93\n"
    "    svc #0\n");

i64 clone_with(u64 flags, void *stack, void *parent, u64 pointer, void *child);

// ---- threads

enum {
    // A thread with its memory, descriptors and handlers shared, with a thread pointer, whose number is stored for its
    // parent and whose word is cleared at its end.
    THREAD_FLAGS = 0x7d0f00,
    SET_POINTER = 0x80000,
    STORE_FOR_PARENT = 0x100000,
    CLEAR_AT_END = 0x200000,
    STORE_FOR_CHILD = 0x1000000,
    STACK_SIZE = 16384,
};

struct thread {
    u8 stack[STACK_SIZE] __attribute__((aligned(16)));
    u32 tid, alive;
};

// The stack of a thread that calls a function. It ends with what that answers.
static inline void *prepared(struct thread *thread, i64 (*function)(u64), u64 n)
{
    u64 *top = (u64 *)(thread->stack + STACK_SIZE) - 2;
    top[0] = (u64)function;
    top[1] = n;
    return top;
}

// Starts a thread that calls a function. Its thread pointer is its place.
static inline void start(struct thread *thread, i64 (*function)(u64), u64 n)
{
    void *stack = prepared(thread, function, n);
    i64 answer;
    store(&thread->alive, 1);
    answer = clone_with(THREAD_FLAGS, stack, &thread->tid, (u64)thread, &thread->alive);
    if (answer <= 0 || load(&thread->tid) != answer) {
        text("there is no thread\n");
        exit_group(98);
    }
}

static inline void join(struct thread *thread)
{
    while (load(&thread->alive) != 0)
        futex(&thread->alive, FUTEX_WAIT, 1, 0, 0, 0);
}

// ---- waiting at words

static inline i64 wait_at(u32 *at, u32 expected) { return futex(at, FUTEX_WAIT | FUTEX_PRIVATE, expected, 0, 0, 0); }
static inline i64 wake_at(u32 *at, u32 count) { return futex(at, FUTEX_WAKE | FUTEX_PRIVATE, count, 0, 0, 0); }

// How many threads wait at a word: all of them are moved to where they are.
static inline i64 waiters(u32 *at)
{
    return futex(at, FUTEX_CMP_REQUEUE | FUTEX_PRIVATE, 0, ALL, at, load(at));
}

static inline void await_waiters(u32 *at, i64 count)
{
    while (waiters(at) != count)
        sched_yield();
}

// Waits until a word has a value, or a greater one.
static inline void await(u32 *at, u32 least)
{
    while (load(at) < least)
        sched_yield();
}
