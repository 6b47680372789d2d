// Waits for several words at once by futex_waitv.
#pragma once
#include "threads.h"

enum { WORD_OF_32_BITS = 2, PRIVATE_WORD = WORD_OF_32_BITS | FUTEX_PRIVATE, MOST_PLACES = 32 };

// A word that is waited for, and the value that it has to have.
struct place {
    u64 value;
    const void *at;
    u32 flags, reserved;
};

static inline i64 futex_waitv(const struct place *places, u64 count, u64 flags, const void *timeout, u64 clock)
{
    return system_call(449, (u64)places, count, flags, (u64)timeout, clock, 0);
}

// Waits for as many words without a timeout.
static inline i64 wait_for_all(const struct place *places, u64 count) { return futex_waitv(places, count, 0, 0, 0); }

// Wakes one thread at a word, as soon as there is one.
static inline void wake_one(u32 *at)
{
    while (wake_at(at, 1) == 0)
        sched_yield();
}
