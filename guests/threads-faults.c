// Faults in threads: each is handled by the thread that met it, on the page that it met, while the others go on.
#include "signals.h"
#include "threads.h"

enum { THREADS = 5, PAGES = 6 };

static struct thread threads[THREADS];
static u32 handled[THREADS], wrong;
static u64 pages[THREADS];

static void make_ready(i32 signal, struct info *info, struct context *context)
{
    u64 n = (struct thread *)thread_pointer() - threads;
    if (n >= THREADS || info->address < pages[n] || info->address >= pages[n] + PAGES * PAGE || info->code != 2)
        exit_group(1);
    if (info->address % PAGE != 8 * n || (mask() & ONLY(SIGSEGV)) == 0)
        fetch_add(&wrong, 1);
    fetch_add(&handled[n], 1);
    mprotect(info->address / PAGE * PAGE, PAGE, RIGHT_READ | RIGHT_WRITE);
}

static i64 work(u64 n)
{
    for (u64 page = 0; page < PAGES; page++) {
        u64 *at = (u64 *)(pages[n] + page * PAGE) + n;
        *(volatile u64 *)at = page;
        if (*(volatile u64 *)at != page || mask() != 0)
            fetch_add(&wrong, 1);
    }
    return 0;
}

int guest(int count, char **arguments)
{
    handle(SIGSEGV, make_ready, 0, 0);
    for (u64 n = 0; n < THREADS; n++) {
        pages[n] = new_pages(PAGES * PAGE);
        // The odd pages can't be used yet, the others can't be written.
        for (u64 page = 0; page < PAGES; page++)
            mprotect(pages[n] + page * PAGE, PAGE, page % 2 ? 0 : RIGHT_READ);
    }
    for (u64 n = 0; n < THREADS; n++)
        start(&threads[n], work, n);
    for (u64 n = 0; n < THREADS; n++)
        join(&threads[n]);
    for (u64 n = 0; n < THREADS; n++)
        line("handled", handled[n]);
    line("wrong", wrong);
    return 0;
}
