// Atomic instructions and exclusive pairs on one thread, on numbers of every width.
#include "guest.h"

static u64 wide = 1000;
static u32 word = 5;
static u16 half = 0xfffe;
static u8 byte = 0x0f;

// An addition by a pair of exclusive accesses, with the number of tries.
static u64 exclusive_add(u64 *at, u64 n)
{
    u64 old, new, tries = 0;
    u32 failed;
    do {
        tries++;
        asm volatile("ldaxr %0, [%3]\n\tadd %1, %0, %4\n\tstlxr %w2, %1, [%3]"
                     : "=&r"(old), "=&r"(new), "=&r"(failed)
                     : "r"(at), "r"(n)
                     : "memory");
    } while (failed != 0);
    return tries;
}

// An exclusive store without its load.
static u32 lone_store(u64 *at, u64 n)
{
    u32 failed;
    asm volatile("clrex\n\tstxr %w0, %1, [%2]" : "=&r"(failed) : "r"(n), "r"(at) : "memory");
    return failed;
}

// An exclusive store after a system call has come between.
static u32 late_store(u64 *at, u64 n)
{
    u64 old;
    u32 failed;
    asm volatile("ldxr %0, [%1]" : "=r"(old) : "r"(at) : "memory");
    asm volatile("clrex" : : : "memory");
    sched_yield();
    asm volatile("stxr %w0, %1, [%2]" : "=&r"(failed) : "r"(n), "r"(at) : "memory");
    return failed;
}

int guest(int count, char **arguments)
{
    u64 expected = 1042;
    u32 expected_word = 6;
    line("add", __atomic_fetch_add(&wide, 42, __ATOMIC_SEQ_CST));
    line("exchange if equal", __atomic_compare_exchange_n(&wide, &expected, 7, 0, __ATOMIC_ACQ_REL, __ATOMIC_ACQUIRE));
    line("the number", __atomic_load_n(&wide, __ATOMIC_ACQUIRE));
    line("exchange if equal", __atomic_compare_exchange_n(&wide, &expected, 8, 0, __ATOMIC_RELAXED, __ATOMIC_RELAXED));
    line("what was found", expected);
    line("swap", __atomic_exchange_n(&word, 6, __ATOMIC_ACQUIRE));
    line("exchange if equal", __atomic_compare_exchange_n(&word, &expected_word, -1, 0, __ATOMIC_RELEASE, __ATOMIC_RELAXED));
    line("subtract", __atomic_fetch_sub(&word, 0x80000000, __ATOMIC_RELAXED));
    hex_line("the word", word);
    line("add to a half", __atomic_fetch_add(&half, 3, __ATOMIC_RELEASE));
    line("the half", half);
    line("or", __atomic_fetch_or(&byte, 0xa0, __ATOMIC_SEQ_CST));
    line("and", __atomic_fetch_and(&byte, 0xf1, __ATOMIC_SEQ_CST));
    line("exclusive or", __atomic_fetch_xor(&byte, 0xff, __ATOMIC_SEQ_CST));
    line("the byte", byte);
    __atomic_store_n(&wide, 100, __ATOMIC_RELEASE);
    for (u64 n = 1; n <= 10; n++)
        if (exclusive_add(&wide, n) < 1)
            return 1;
    line("the sum", wide);
    line("a store without a load fails", lone_store(&wide, 1));
    line("a store after CLREX fails", late_store(&wide, 1));
    line("the sum", wide);
    __atomic_thread_fence(__ATOMIC_SEQ_CST);
    return 0;
}
