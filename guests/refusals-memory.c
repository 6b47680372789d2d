// What brk, munmap, mmap, mprotect and madvise refuse, and with which error.
#include "guest.h"

int guest(int count, char **arguments)
{
    u64 at = new_pages(4 * PAGE), hole = at + 2 * PAGE, start = brk(0);
    munmap(hole, PAGE);
    truth("brk to behind a page in use stays", (u64)brk(at + PAGE) == start);
    answer("munmap of no page's start", munmap(at + 1, PAGE));
    answer("munmap of no length", munmap(at, 0));
    answer("munmap to above the address space", munmap(1UL << 50, PAGE));
    answer("munmap of a length above it", munmap(at, 1UL << 50));
    answer("mmap of no length", mmap(0, 0, 3, MAP_PRIVATE | MAP_ANONYMOUS, -1, 0));
    answer("mmap neither shared nor private", mmap(0, PAGE, 3, MAP_ANONYMOUS, -1, 0));
    answer("mmap shared and private", mmap(0, PAGE, 3, MAP_SHARED | MAP_PRIVATE | MAP_ANONYMOUS, -1, 0));
    answer("mmap of a pipe", mmap(0, PAGE, RIGHT_READ, MAP_PRIVATE, 0, 0));
    answer("mmap fixed at no page's start", mmap(at + 8, PAGE, 3, MAP_PRIVATE | MAP_ANONYMOUS | MAP_FIXED, -1, 0));
    address_answer("mmap of more than there is", mmap(0, 1UL << 50, 3, MAP_PRIVATE | MAP_ANONYMOUS, -1, 0));
    answer("mprotect of no page's start", mprotect(at + 16, PAGE, 1));
    answer("mprotect to unknown rights", mprotect(at, PAGE, 0x100));
    answer("mprotect of a hole", mprotect(hole, PAGE, 1));
    answer("mprotect of a hole to no rights", mprotect(hole, PAGE, 0));
    answer("madvise of no page's start", madvise(at + 4, PAGE, 0));
    address_answer("mmap of a page", mmap(0, PAGE, 3, MAP_PRIVATE | MAP_ANONYMOUS, -1, 0));
    return 0;
}
