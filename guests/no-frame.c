// A handler whose frame can't be stored, since its stack isn't there: the guest ends by SIGSEGV, which is status 139.
#include "signals.h"

static void note(i32 signal, struct info *info, struct context *context)
{
    text("in the handler\n");
}

int guest(int count, char **arguments)
{
    struct signal_stack stack = {new_pages(4 * PAGE), 0, 4 * PAGE};
    handle(SIGUSR1, note, SA_ONSTACK, 0);
    sigaltstack(&stack, 0);
    answer("raise", raise(SIGUSR1));
    munmap(stack.at, 4 * PAGE);
    text("a signal follows\n");
    answer("raise", raise(SIGUSR1));
    return 0;
}
