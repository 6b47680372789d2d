// Rights of pages: what can still be read after mprotect, and that a store to a page that is only read ends the guest by
// SIGSEGV, which is status 139.
#include "guest.h"

int guest(int count, char **arguments)
{
    volatile u8 *at = (volatile u8 *)new_pages(3 * PAGE);
    i32 ends[2];
    at[0] = 1;
    at[PAGE] = 2;
    at[2 * PAGE] = 3;
    answer("mprotect to read", mprotect((u64)at + PAGE, PAGE, RIGHT_READ));
    line("the page is read", at[PAGE]);
    at[PAGE - 1] = 4;
    at[2 * PAGE] = 5;
    line("the pages beside it are written", at[PAGE - 1] + at[2 * PAGE]);
    pipe2(ends, 0);
    answer("write from it", write(ends[1], (void *)(at + PAGE), 100));
    answer("read into it", read(ends[0], (void *)(at + PAGE), 10));
    answer("mprotect to write", mprotect((u64)at + PAGE, PAGE, RIGHT_READ | RIGHT_WRITE));
    at[PAGE] = 6;
    line("it is written", at[PAGE]);
    answer("mprotect of all to none", mprotect((u64)at, 3 * PAGE, 0));
    answer("write from a page without a right", write(ends[1], (void *)at, 1));
    answer("mprotect of all to read", mprotect((u64)at, 3 * PAGE, RIGHT_READ));
    line("the sum", at[0] + at[PAGE - 1] + at[PAGE] + at[2 * PAGE]);
    text("a store follows\n");
    at[PAGE + 5] = 7;
    text("the store went well\n");
    return 0;
}
