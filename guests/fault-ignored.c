// A fault whose signal is ignored ends the guest. A breakpoint is met again after its handler, which ignores its signal from
// then on; it is status 133.
#include "signals.h"

static volatile u32 times;

static void ignore(i32 signal, struct info *info, struct context *context)
{
    line("times", ++times);
    set_action(SIGTRAP, TO_IGNORE, 0, 0);
}

int guest(int count, char **arguments)
{
    handle(SIGTRAP, ignore, 0, 0);
    text("a breakpoint follows\n");
    asm volatile("brk #0" : : : "memory");
    text("after the breakpoint\n");
    return 0;
}
