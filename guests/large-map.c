// 256 MiB of pages by one mmap: they are zeros from the first byte to the last, and one munmap gives them back.
#include "guest.h"

enum { LENGTH = 256 << 20 };

int guest(int count, char **arguments)
{
    u8 *at = (u8 *)new_pages(LENGTH);
    truth("aligned", (u64)at % PAGE == 0);
    line("the first byte", at[0]);
    line("the last byte", at[LENGTH - 1]);
    at[0] = 1;
    at[LENGTH - 1] = 2;
    line("the first byte", at[0]);
    line("the last byte", at[LENGTH - 1]);
    answer("munmap", munmap((u64)at, LENGTH));
    answer("a write of its last byte", write(1, at + LENGTH - 1, 1));
    return 0;
}
