// Locks that name their owner, by the futex operations for priority inheritance. The word has the owner's tid.
#pragma once
#include "robusts.h"

enum { FUTEX_LOCK_PI = 6, FUTEX_UNLOCK_PI = 7, FUTEX_TRYLOCK_PI = 8 };

static inline i64 lock_pi(u32 *lock, const void *timeout)
{
    return futex(lock, FUTEX_LOCK_PI | FUTEX_PRIVATE, 0, (u64)timeout, 0, 0);
}

static inline i64 try_lock_pi(u32 *lock) { return futex(lock, FUTEX_TRYLOCK_PI | FUTEX_PRIVATE, 0, 0, 0, 0); }
static inline i64 unlock_pi(u32 *lock) { return futex(lock, FUTEX_UNLOCK_PI | FUTEX_PRIVATE, 0, 0, 0, 0); }

// Takes the lock, by the system alone where another has it.
static inline void take_pi(u32 *lock, u32 tid)
{
    if (compare_swap(lock, 0, tid) != 0 && lock_pi(lock, 0) != 0)
        exit_group(95);
}

// Gives it, by the system alone where others may wait for it.
static inline void give_pi(u32 *lock, u32 tid)
{
    if (compare_swap(lock, tid, 0) != tid && unlock_pi(lock) != 0)
        exit_group(96);
}

// Waits until some thread waits for the lock, whose word shows it from then on.
static inline void await_waiter(u32 *lock)
{
    while ((load(lock) & WAITERS) == 0)
        sched_yield();
}
