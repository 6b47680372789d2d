// Eight threads, each of which waits for work at a word of its own and for the end at a word of all.
#include "waitv.h"

enum { THREADS = 8, PIECES = 12 };

struct worker {
    struct thread thread;
    u32 given, taken;
    u64 sum;
};

static struct worker workers[THREADS];
static u32 is_over;

static i64 work(u64 n)
{
    struct worker *worker = &workers[n];
    for (;;) {
        u32 seen = load(&worker->given);
        struct place places[2] = {{seen, &worker->given, PRIVATE_WORD, 0}, {0, &is_over, PRIVATE_WORD, 0}};
        i64 result;
        while (worker->taken < seen) {
            worker->taken++;
            worker->sum += worker->taken * (n + 1);
        }
        if (load(&is_over) && load(&worker->given) == seen)
            return 0;
        result = wait_for_all(places, 2);
        if (result != 0 && result != 1 && result != -11)
            exit_group(1);
    }
}

int guest(int count, char **arguments)
{
    u64 sum = 0;
    for (u64 n = 0; n < THREADS; n++)
        start(&workers[n].thread, work, n);
    for (u64 piece = 0; piece < PIECES; piece++)
        for (u64 n = 0; n < THREADS; n++) {
            fetch_add(&workers[n].given, 1);
            wake_at(&workers[n].given, 1);
        }
    store(&is_over, 1);
    wake_at(&is_over, ALL);
    for (u64 n = 0; n < THREADS; n++)
        join(&workers[n].thread);
    for (u64 n = 0; n < THREADS; n++) {
        if (workers[n].taken != PIECES)
            line("a thread has taken", workers[n].taken);
        sum += workers[n].sum;
    }
    line("the sum", sum);
    line("waiters that are left", wake_at(&is_over, ALL));
    return 0;
}
