// An exclusive store fails where a call or a handler of a signal has come since the exclusive load.
#include "signals.h"

static u64 word = 5;
static volatile u32 times;

static void skip(i32 signal, struct info *info, struct context *context)
{
    times++;
    context->pc += 4;
}

#define TRY(name, between)                                                                                             \
    do {                                                                                                               \
        u64 old;                                                                                                       \
        u32 failed;                                                                                                    \
        asm volatile("ldxr %0, [%2]\n\t" between "\n\tstxr %w1, %3, [%2]"                                              \
                     : "=&r"(old), "=&r"(failed)                                                                       \
                     : "r"(&word), "r"(word + 1)                                                                       \
                     : "x0", "x8", "memory");                                                                          \
        line(name, failed);                                                                                            \
    } while (0)

int guest(int count, char **arguments)
{
    handle(SIGTRAP, skip, 0, 0);
    handle(SIGSEGV, skip, 0, 0);
    TRY("nothing between", "nop");
    TRY("a call", "mov x8, #178\n\tsvc #0");
    TRY("a handled breakpoint", "brk #1");
    TRY("a handled fault", "mov x8, #16\n\tldr x0, [x8]");
    TRY("nothing between", "nop");
    line("times", times);
    line("the word", word);
    return 0;
}
