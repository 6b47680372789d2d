// Words that are no instruction, where their signal is handled: the handler goes on behind them.
#include "signals.h"

static volatile u32 times;
static volatile u64 places[2];

static void skip(i32 signal, struct info *info, struct context *context)
{
    line("the signal", signal);
    line("the code", info->code);
    truth("the address is that of the word", info->address == context->pc);
    places[times++] = info->address;
    context->pc += 4;
}

int guest(int count, char **arguments)
{
    handle(SIGILL, skip, 0, 0);
    asm volatile(".word 0\n\t.word 0x0000ffff" : : : "memory");
    line("times", times);
    line("the distance", places[1] - places[0]);
    return 0;
}
