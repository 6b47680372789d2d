// A lock whose owners end without giving it: each time the system marks it and wakes the next, which takes it over.
#include "robusts.h"

enum { THREADS = 8 };

static struct thread threads[THREADS];
static struct lock lock;
static struct head heads[THREADS];
static u32 died, first, wrong, ready;
static volatile u64 inside, sum;

// Takes the lock. True: its last owner has ended.
static int take_robust(u32 tid)
{
    for (;;) {
        u32 word = load(&lock.word);
        if ((word & OWNER) == 0) {
            if (compare_swap(&lock.word, word, tid | (word & WAITERS)) == word)
                return (word & OWNER_DIED) != 0;
        } else if (word & WAITERS)
            futex(&lock.word, FUTEX_WAIT, word, 0, 0, 0);
        else
            compare_swap(&lock.word, word, word | WAITERS);
    }
}

static i64 work(u64 n)
{
    struct head *head = &heads[n];
    head->next = head;
    head->offset = WORD_OFFSET;
    head->pending = &lock;
    if (set_robust_list(head, HEAD_SIZE) != 0)
        exit_group(1);
    fetch_add(&ready, 1);
    await(&ready, THREADS);
    if (take_robust(gettid()))
        fetch_add(&died, 1);
    else
        fetch_add(&first, 1);
    if (inside != sum)
        fetch_add(&wrong, 1);
    inside += n + 1;
    sched_yield();
    sum += n + 1;
    // Now it is in the list, and no more under way.
    lock.next = head;
    head->next = &lock;
    head->pending = 0;
    return 0;
}

int guest(int count, char **arguments)
{
    for (u64 n = 0; n < THREADS; n++)
        start(&threads[n], work, n);
    for (u64 n = 0; n < THREADS; n++)
        join(&threads[n]);
    line("threads that took the free lock", first);
    line("threads that took it over", died);
    line("wrong", wrong);
    line("the sum", sum);
    hex_line("the word", lock.word & ~WAITERS);
    return 0;
}
