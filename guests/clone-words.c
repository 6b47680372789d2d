// The choices of clone: which words get the new thread's number and are cleared at its end, no thread pointer, words that
// can't be written, and what is refused.
#include "threads.h"

enum { PLAIN = THREAD_FLAGS & ~(SET_POINTER | STORE_FOR_PARENT | CLEAR_AT_END) };

static struct thread thread;
static u32 for_parent, for_child, done, words[3];
static volatile u32 seen;
static volatile u64 pointer;

static i64 work(u64 n)
{
    seen = load(&for_child);
    pointer = thread_pointer();
    if (n == 2)
        set_tid_address((u64)&for_parent);
    store(&done, n);
    return 0;
}

// Starts a thread and waits until it has done its work.
static i64 run(u64 flags, u64 n, void *parent, u64 own_pointer, void *child)
{
    i64 answer = clone_with(flags, prepared(&thread, work, n), parent, own_pointer, child);
    if (answer > 0)
        while (load(&done) != n)
            sched_yield();
    return answer;
}

// Waits until a word is cleared, without a futex. The stack of the thread that does so is free then.
static void await_clear(const u32 *at)
{
    while (load(at) != 0)
        sched_yield();
}

int guest(int count, char **arguments)
{
    u32 tid;
    u8 *odd = (u8 *)words + 2;

    tid = run(PLAIN | STORE_FOR_PARENT | STORE_FOR_CHILD | CLEAR_AT_END, 1, &for_parent, 99, &for_child);
    truth("the number is stored for the parent", for_parent == tid);
    truth("the number is stored for the child", seen == tid);
    await_clear(&for_child);
    truth("the thread pointer is that of the first thread", pointer == thread_pointer());

    tid = run(PLAIN | SET_POINTER | CLEAR_AT_END, 2, &for_parent, 77, &for_child);
    line("the thread pointer", pointer);
    line("nothing is stored for the child", seen);
    await_clear(&for_parent);
    line("another word was cleared", for_parent);

    // A word on no multiple of 4 is cleared too.
    memset(words, 0xff, sizeof words);
    tid = run(PLAIN | CLEAR_AT_END, 3, 0, 0, odd);
    for (volatile u8 *at = odd; at[0] | at[1] | at[2] | at[3];)
        sched_yield();
    hex_line("beside it", words[0]);
    hex_line("and after it", words[1]);

    // Words that can't be written make no difference.
    void *bad = (void *)new_pages(PAGE);
    mprotect((u64)bad, PAGE, 0);
    truth("a thread starts", run(PLAIN | STORE_FOR_PARENT | STORE_FOR_CHILD | CLEAR_AT_END, 4, bad, 0, bad) > 0);

    answer("threads without handlers", clone_with(0x10f00 & ~0x800, prepared(&thread, work, 5), 0, 0, 0));
    answer("handlers without memory", clone_with(0x10f00 & ~0x100, prepared(&thread, work, 6), 0, 0, 0));
    line("done", done);
    return 0;
}
