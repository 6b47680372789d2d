// An exclusive store fails where another thread has stored to the same 16 bytes since the exclusive load, even what was
// there.
#include "threads.h"

static struct {
    u64 word;
    u64 beside;
    u64 unused[6];
    u32 flag;
} shared __attribute__((aligned(64)));

static struct thread thread;

// Loads, lets the other thread store, and tries to store: 1 where that fails.
static u32 try_store(u64 new)
{
    u64 old;
    u32 failed, seen;
    asm volatile("    ldxr %0, [%3]\n"
                 "    stlr %w5, [%4]\n"
                 "1:  ldar %w2, [%4]\n"
                 "    cmp %w2, #2\n"
                 "    b.ne 1b\n"
                 "    stxr %w1, %6, [%3]"
                 : "=&r"(old), "=&r"(failed), "=&r"(seen)
                 : "r"(&shared.word), "r"(&shared.flag), "r"(1), "r"(new)
                 : "memory", "cc");
    return failed;
}

static i64 store_other(u64 n)
{
    struct time *time = (struct time *)&shared;
    u64 old;
    while (load(&shared.flag) != 1)
        ;
    switch (n) {
    case 0: *(volatile u64 *)&shared.word = 5; break;
    case 1: *(volatile u8 *)&shared.beside = 1; break;
    case 2: asm volatile("ldadd xzr, %0, [%1]" : "=r"(old) : "r"(&shared.word) : "memory"); break;
    case 3: clock_gettime(1, time); break;
    default: read(0, &shared.beside, 1); break;
    }
    store(&shared.flag, 2);
    return 0;
}

static void show(const char *name, u64 n)
{
    u32 failed;
    shared.word = 5;
    store(&shared.flag, 0);
    start(&thread, store_other, n);
    failed = try_store(77);
    join(&thread);
    text(name);
    text(failed ? ": the store fails" : ": the store goes well");
    text(shared.word == 77 ? ", and has stored\n" : "\n");
}

int guest(int count, char **arguments)
{
    show("the same number", 0);
    show("a byte beside it", 1);
    show("an addition of 0", 2);
    show("a call that stores", 3);
    show("a read", 4);
    return 0;
}
