// Variables of each thread's own: a block for each, which the thread pointer of clone names. A thread pointer is the
// thread's own too.
#include "threads.h"

enum { THREADS = 6 };

static __thread u64 counter = 1000;
static __thread u32 numbers[4] = {1, 2, 3, 4};
static __thread u8 zeros[20];

struct header {
    u32 type, flags;
    u64 offset, at, physical, file_size, memory_size, alignment;
};

static const struct header *own;
static u8 blocks[THREADS + 1][256] __attribute__((aligned(64)));
static volatile u64 sums[THREADS];
static struct thread threads[THREADS];

// A block with the first values of the variables, behind two words.
static u64 new_block(u64 n)
{
    u64 start = (16 + own->alignment - 1) / own->alignment * own->alignment;
    memcpy(blocks[n] + start, (const void *)own->at, own->file_size);
    return (u64)blocks[n];
}

__attribute__((noinline)) static void count_up(u64 by)
{
    counter += by;
    numbers[by % 4] += (u32)by;
    zeros[19]++;
}

static i64 work(u64 n)
{
    u64 other;
    for (u64 i = 0; i < 20; i++) {
        count_up(n + 1);
        if (i % 4 == 0)
            sched_yield();
    }
    sums[n] = counter + numbers[0] + numbers[1] + numbers[2] + numbers[3] + zeros[19];
    // Another pointer for a while.
    set_thread_pointer(n);
    sched_yield();
    other = thread_pointer();
    if (other != n)
        sums[n] = 0;
    return 0;
}

int guest(int count, char **arguments)
{
    char **at = arguments + count + 1;
    u64 *pair, left = 0;
    while (*at != 0)
        at++;
    for (pair = (u64 *)(at + 1); pair[0] != 0; pair += 2) {
        if (pair[0] == 3)
            own = (const struct header *)pair[1];
        if (pair[0] == 5)
            left = pair[1];
    }
    for (; left > 0 && own->type != 7; left--)
        own++;
    truth("there is a header for them", left > 0);
    set_thread_pointer(new_block(THREADS));
    counter = 5;
    for (u64 n = 0; n < THREADS; n++) {
        struct thread *thread = &threads[n];
        store(&thread->alive, 1);
        if (clone_with(THREAD_FLAGS, prepared(thread, work, n), &thread->tid, new_block(n), &thread->alive) < 0)
            return 1;
    }
    for (u64 n = 0; n < THREADS; n++)
        join(&threads[n]);
    for (u64 n = 0; n < THREADS; n++)
        line("the sum", sums[n]);
    line("the counter of the first thread", counter);
    line("its byte", zeros[19]);
    truth("its thread pointer stays", thread_pointer() == (u64)blocks[THREADS]);
    return 0;
}
