// A load from a page that was given back ends the guest by SIGSEGV, which is status 139.
#include "guest.h"

int guest(int count, char **arguments)
{
    volatile u64 *at = (volatile u64 *)new_pages(2 * PAGE);
    at[0] = 11;
    at[PAGE / 8] = 22;
    answer("munmap of the second page", munmap((u64)at + PAGE, PAGE));
    line("the first page", at[0]);
    text("a load follows\n");
    line("the second page", at[PAGE / 8]);
    return 0;
}
