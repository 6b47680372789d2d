// What madvise answers and refuses, and what an mprotect of no length answers.
#include "guest.h"

int guest(int count, char **arguments)
{
    u64 at = new_pages(4 * PAGE), hole = at + 2 * PAGE;
    munmap(hole, PAGE);
    *(u8 *)at = 5;
    answer("madvise of no page's start", madvise(at + 4, PAGE, 0));
    answer("madvise of no page's start with unknown advice", madvise(at + 4, PAGE, 99));
    answer("madvise with unknown advice", madvise(at, PAGE, 99));
    answer("madvise with unknown advice of a hole", madvise(hole, PAGE, 99));
    for (u64 advice = 0; advice <= 4; advice++)
        answer("madvise of a hole", madvise(hole, PAGE, advice));
    for (u64 advice = 0; advice <= 3; advice++)
        answer("madvise", madvise(at, 2 * PAGE, advice));
    line("the byte", *(u8 *)at);
    answer("madvise that the page isn't needed", madvise(at, 1, MADV_DONTNEED));
    line("the byte", *(u8 *)at);
    answer("madvise of no length", madvise(at, 0, MADV_DONTNEED));
    answer("mprotect of no length", mprotect(at, 0, RIGHT_READ));
    answer("mprotect of no length in a hole", mprotect(hole, 0, RIGHT_READ));
    *(u8 *)at = 6;
    line("the byte", *(u8 *)at);
    return 0;
}
