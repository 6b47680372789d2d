// A fault whose signal is blocked ends the guest, even if there is a handler. It is status 139.
#include "signals.h"

static void note(i32 signal, struct info *info, struct context *context)
{
    text("in the handler\n");
    exit_group(1);
}

int guest(int count, char **arguments)
{
    u64 page = new_pages(PAGE);
    munmap(page, PAGE);
    handle(SIGSEGV, note, 0, 0);
    change_mask(TO_BLOCK, ONLY(SIGSEGV));
    hex_line("what is blocked", mask());
    text("a load follows\n");
    *(volatile u8 *)page;
    text("after the load\n");
    return 0;
}
