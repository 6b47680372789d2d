// Robust lists: the words that a thread holds, which the system marks where the thread ends.
#pragma once
#include "threads.h"

enum { WAITERS = 0x80000000, OWNER_DIED = 0x40000000, OWNER = 0x3fffffff, HEAD_SIZE = 24 };

// A lock in a list, with the word behind the pointer.
struct lock {
    void *next;
    u32 unused, word;
};

enum { WORD_OFFSET = 12 };

struct head {
    void *next;
    i64 offset;
    void *pending;
};

static inline i64 set_robust_list(const struct head *head, u64 size)
{
    return system_call(99, (u64)head, size, 0, 0, 0, 0);
}

static inline i64 get_robust_list(i64 tid, void *head, void *size)
{
    return system_call(100, tid, (u64)head, (u64)size, 0, 0, 0);
}

// How many threads wait at such a word. The system wakes them as other processes do.
static inline i64 shared_waiters(u32 *at) { return futex(at, FUTEX_CMP_REQUEUE, 0, ALL, at, load(at)); }

static inline i64 wait_for_owner(u64 at) { return futex((u32 *)at, FUTEX_WAIT, load((u32 *)at), 0, 0, 0); }

// Starts a thread that waits at a word, as one of so many.
static inline void start_waiter(struct thread *thread, u32 *at, i64 count)
{
    start(thread, wait_for_owner, (u64)at);
    while (shared_waiters(at) != count)
        sched_yield();
}
