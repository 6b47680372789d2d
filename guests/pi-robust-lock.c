// A lock that names its owner, whose owners end without giving it: each time the next that waits has it.
#include "pi.h"

enum { THREADS = 8 };

static struct thread threads[THREADS];
static struct lock lock;
static struct head heads[THREADS];
static u32 died, first, ready;
static volatile u64 inside, sum;
static u32 wrong;

static i64 work(u64 n)
{
    u32 tid = gettid(), word;
    struct head *head = &heads[n];
    head->next = head;
    head->offset = WORD_OFFSET;
    head->pending = (u8 *)&lock + 1;
    if (set_robust_list(head, HEAD_SIZE) != 0)
        exit_group(1);
    fetch_add(&ready, 1);
    await(&ready, THREADS);
    if (lock_pi(&lock.word, 0) != 0)
        exit_group(2);
    word = load(&lock.word);
    if ((word & OWNER) != tid)
        fetch_add(&wrong, 1);
    fetch_add(word & OWNER_DIED ? &died : &first, 1);
    if (inside != sum)
        fetch_add(&wrong, 1);
    inside += n + 1;
    sched_yield();
    sum += n + 1;
    // Now it is in the list, and no more under way.
    lock.next = head;
    head->next = (u8 *)&lock + 1;
    head->pending = 0;
    return 0;
}

int guest(int count, char **arguments)
{
    for (u64 n = 0; n < THREADS; n++)
        start(&threads[n], work, n);
    for (u64 n = 0; n < THREADS; n++)
        join(&threads[n]);
    line("threads that took the free lock", first);
    line("threads that took it over", died);
    line("wrong", wrong);
    line("the sum", sum);
    hex_line("the word", lock.word & ~WAITERS);
    return 0;
}
