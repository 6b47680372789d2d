// A real-time signal that nobody handles ends the guest. It is status 168.
#include "signals.h"

static void note(i32 signal, struct info *info, struct context *context) { line("the signal", signal); }

int guest(int count, char **arguments)
{
    handle(40, note, SA_RESETHAND, 0);
    raise(40);
    change_mask(TO_BLOCK, ONLY(40));
    raise(40);
    text("it is blocked\n");
    change_mask(TO_UNBLOCK, ONLY(40));
    text("after the end\n");
    return 0;
}
