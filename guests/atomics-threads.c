// Atomic instructions and exclusive pairs of four threads on the same numbers of every width, beside each other in memory.
#include "threads.h"

enum { THREADS = 4, TIMES = 60 };

static struct {
    u64 wide;
    u32 word;
    u16 half;
    u8 byte, other;
    u64 set, cleared, turned;
    u64 spin;
    u64 plain;
} shared __attribute__((aligned(16)));

static struct thread threads[THREADS];

// An addition by a pair of exclusive accesses of a width.
#define EXCLUSIVE_ADD(name, type, width, suffix)                                                                       \
    static void name(type *at, type n)                                                                                 \
    {                                                                                                                  \
        u64 sum;                                                                                                       \
        u32 failed;                                                                                                    \
        asm volatile("1: ldxr" suffix " %" width "0, [%2]\n\tadd %0, %0, %3\n\tstxr" suffix " %w1, %" width           \
                     "0, [%2]\n\tcbnz %w1, 1b"                                                                         \
                     : "=&r"(sum), "=&r"(failed)                                                                       \
                     : "r"(at), "r"((u64)n)                                                                            \
                     : "memory");                                                                                      \
    }

EXCLUSIVE_ADD(add_wide, u64, "", "")
EXCLUSIVE_ADD(add_word, u32, "w", "")
EXCLUSIVE_ADD(add_half, u16, "w", "h")
EXCLUSIVE_ADD(add_byte, u8, "w", "b")

static i64 work(u64 n)
{
    u64 old;
    for (u64 i = 0; i < TIMES; i++) {
        if (i % 2 == n % 2) {
            __atomic_fetch_add(&shared.wide, 1UL << 32, __ATOMIC_RELAXED);
            __atomic_fetch_add(&shared.word, 1000, __ATOMIC_RELAXED);
            __atomic_fetch_add(&shared.half, 7, __ATOMIC_RELAXED);
            __atomic_fetch_add(&shared.byte, 1, __ATOMIC_RELAXED);
        } else {
            add_wide(&shared.wide, 1UL << 32);
            add_word(&shared.word, 1000);
            add_half(&shared.half, 7);
            add_byte(&shared.byte, 1);
        }
        // No other thread has these bits.
        asm volatile("ldset %1, %0, [%2]" : "=r"(old) : "r"(1UL << (n * 16 + i % 16)), "r"(&shared.set) : "memory");
        asm volatile("ldclr %1, %0, [%2]" : "=r"(old) : "r"(1UL << (n * 16 + i % 16)), "r"(&shared.cleared) : "memory");
        asm volatile("ldeor %1, %0, [%2]" : "=r"(old) : "r"(1UL << (n * 16 + i % 16)), "r"(&shared.turned) : "memory");
        // A lock of one byte.
        do
            asm volatile("swpab %w1, %w0, [%2]" : "=r"(old) : "r"(1), "r"(&shared.spin) : "memory");
        while (old != 0);
        shared.plain += i;
        asm volatile("stlrb wzr, [%0]" : : "r"(&shared.spin) : "memory");
    }
    return 0;
}

int guest(int count, char **arguments)
{
    shared.other = 0x5a;
    shared.cleared = -1;
    for (u64 n = 0; n < THREADS; n++)
        start(&threads[n], work, n);
    for (u64 n = 0; n < THREADS; n++)
        join(&threads[n]);
    hex_line("wide", shared.wide);
    line("word", shared.word);
    line("half", shared.half);
    line("byte", shared.byte);
    hex_line("the byte beside it", shared.other);
    hex_line("bits that were set", shared.set);
    hex_line("bits that are left", shared.cleared);
    hex_line("bits that were turned", shared.turned);
    line("the sum under a lock of a byte", shared.plain);
    return 0;
}
