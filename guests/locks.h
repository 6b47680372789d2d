// A lock and a condition over futexes, for guests with threads.
#pragma once
#include "threads.h"

// 0: free, 1: taken, 2: taken, and there may be waiters.
static inline void take(u32 *lock)
{
    if (compare_swap(lock, 0, 1) == 0)
        return;
    while (swap(lock, 2) != 0)
        wait_at(lock, 2);
}

static inline void give(u32 *lock)
{
    if (swap(lock, 0) == 2)
        wake_at(lock, 1);
}

// A condition is a number that each signal changes.
static inline void wait_for_signal(u32 *condition, u32 *lock)
{
    u32 seen = load(condition);
    give(lock);
    wait_at(condition, seen);
    take(lock);
}

static inline void signal_one(u32 *condition)
{
    fetch_add(condition, 1);
    wake_at(condition, 1);
}

static inline void signal_all(u32 *condition)
{
    fetch_add(condition, 1);
    wake_at(condition, ALL);
}
