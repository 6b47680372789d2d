// Variables of the thread's own: the guest finds their first values by the program headers, copies them, and sets the
// thread pointer, as a C library does at the start.
#include "guest.h"

static __thread u64 first = 0x1122334455667788;
static __thread u32 numbers[5] = {10, 20, 30, 40, 50};
static __thread u8 zeros[100];
static __thread u64 aligned __attribute__((aligned(32))) = 99;

struct header {
    u32 type, flags;
    u64 offset, at, physical, file_size, memory_size, alignment;
};

static u8 block[1024] __attribute__((aligned(64)));

// The number of this kind in the auxiliary vector, which stands behind the environment.
static u64 auxiliary(char **environment, u64 kind)
{
    while (*environment != 0)
        environment++;
    for (u64 *pair = (u64 *)(environment + 1); pair[0] != 0; pair += 2)
        if (pair[0] == kind)
            return pair[1];
    return 0;
}

static u64 thread_pointer(void)
{
    u64 pointer;
    asm volatile("mrs %0, tpidr_el0" : "=r"(pointer));
    return pointer;
}

__attribute__((noinline)) static u64 sum_of_numbers(void)
{
    u64 sum = 0;
    for (u32 at = 0; at < COUNT(numbers); at++)
        sum += numbers[at];
    return sum;
}

__attribute__((noinline)) static void change(u64 by)
{
    first += by;
    numbers[4] -= (u32)by;
    zeros[99] = (u8)by;
    aligned *= by;
}

int guest(int count, char **arguments)
{
    char **environment = arguments + count + 1;
    const struct header *header = (const struct header *)auxiliary(environment, 3);
    u64 left = auxiliary(environment, 5), start;
    truth("the thread pointer is 0 at the start", thread_pointer() == 0);
    for (; left > 0 && header->type != 7; left--)
        header++;
    truth("there is a header for them", left > 0);
    line("their alignment", header->alignment);
    // The block of the thread pointer has two words before the variables.
    start = (16 + header->alignment - 1) / header->alignment * header->alignment;
    memcpy(block + start, (const void *)header->at, header->file_size);
    asm volatile("msr tpidr_el0, %0" : : "r"(block) : "memory");
    truth("the thread pointer is set", thread_pointer() == (u64)block);
    hex_line("the first", first);
    line("the sum of the numbers", sum_of_numbers());
    line("a zero", zeros[99]);
    line("the aligned one", aligned);
    truth("it is aligned", (u64)&aligned % 32 == 0);
    change(7);
    sched_yield();
    hex_line("the first then", first);
    line("the sum of the numbers then", sum_of_numbers());
    line("the byte then", zeros[99]);
    line("the aligned one then", aligned);
    truth("they lie in the block", (u64)&first >= (u64)block + 16 && (u64)&zeros[99] < (u64)block + sizeof block);
    return 0;
}
