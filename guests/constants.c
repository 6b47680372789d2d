// A store to a constant of the image ends the guest by SIGSEGV, which is status 139.
#include "guest.h"

static const u32 table[4] = {1, 2, 3, 4};

int guest(int count, char **arguments)
{
    volatile u32 *at = (volatile u32 *)table;
    asm("" : "+r"(at));
    line("a constant", at[2]);
    text("a store follows\n");
    at[2] = 5;
    line("a constant", at[2]);
    return 0;
}
