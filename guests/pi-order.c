// The order in which a lock that names its owner is handed over. Each thread has a tenth of a second, which is long enough
// to come to its wait, before the next begins.
#include "pi.h"

enum { THREADS = 5 };

static struct thread threads[THREADS];
static u32 lock, may_give[THREADS];
static volatile u64 order[THREADS], got;
static volatile i64 answers[THREADS];

static i64 work(u64 n)
{
    answers[n] = lock_pi(&lock, 0);
    order[got++] = n;
    await(&may_give[n], 1);
    give_pi(&lock, gettid());
    return 0;
}

int guest(int count, char **arguments)
{
    u32 tid = gettid();
    struct time tenth = {0, 100000000};
    answer("lock", lock_pi(&lock, 0));
    hex_line("the word is that of its owner", lock ^ tid);
    start(&threads[0], work, 0);
    // The first that waits has the lock as soon as it is given: nobody takes it before.
    await_waiter(&lock);
    truth("the owner stays", (lock & OWNER) == tid);
    answer("unlock", unlock_pi(&lock));
    truth("the first owns it", (load(&lock) & OWNER) == threads[0].tid);
    answer("try", try_lock_pi(&lock));
    answer("unlock what another owns", unlock_pi(&lock));
    store(&may_give[0], 1);
    join(&threads[0]);
    hex_line("the word", lock);
    got = 0;

    answer("lock", lock_pi(&lock, 0));
    for (u64 n = 0; n < THREADS; n++) {
        store(&may_give[n], 1);
        start(&threads[n], work, n);
        nanosleep(&tenth, 0);
    }
    answer("unlock", unlock_pi(&lock));
    answer("lock behind all others", lock_pi(&lock, 0));
    line("others that have had it", got);
    answer("unlock", unlock_pi(&lock));
    for (u64 n = 0; n < THREADS; n++)
        join(&threads[n]);
    for (u64 n = 0; n < THREADS; n++) {
        number(order[n]);
        text(n + 1 < THREADS ? ", " : " is the order\n");
        if (answers[n] != 0)
            answer("a lock", answers[n]);
    }
    hex_line("the word", lock);
    return 0;
}
