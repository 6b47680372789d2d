// What futex refuses, on one thread.
#include "guest.h"

static u32 words[4] = {1, 2, 3, 4};

static i64 call(const void *at, u64 operation, u64 value, u64 value2, const void *second, u32 value3)
{
    return futex(at, operation | FUTEX_PRIVATE, value, value2, second, value3);
}

int guest(int count, char **arguments)
{
    u8 *odd = (u8 *)words + 2;
    u32 *no_page = (u32 *)(new_pages(PAGE) + 16), *to_read = (u32 *)new_pages(PAGE);
    *to_read = 1;
    munmap((u64)no_page - 16, PAGE);
    mprotect((u64)to_read, PAGE, RIGHT_READ);

    answer("operation 2", call(words, 2, 1, 0, 0, 0));
    answer("operation 14", call(words, 14, 1, 0, 0, 0));
    answer("operation 127", call(words, 127, 1, 0, 0, 0));
    answer("wake by a clock", call(words, FUTEX_WAKE | FUTEX_REAL_TIME, 1, 0, 0, 0));
    answer("requeue by a clock", call(words, FUTEX_CMP_REQUEUE | FUTEX_REAL_TIME, 1, 0, words, 1));

    answer("wait at an odd address", call(odd, FUTEX_WAIT, 1, 0, 0, 0));
    answer("wake at an odd address", call(odd, FUTEX_WAKE, 1, 0, 0, 0));
    answer("requeue from an odd address", call(odd, FUTEX_CMP_REQUEUE, 1, 1, words, 1));
    answer("requeue to an odd address", call(words, FUTEX_CMP_REQUEUE, 1, 1, odd, 1));
    answer("operate on an odd address", call(words, FUTEX_WAKE_OP, 1, 1, odd, 0));

    answer("wait for another value", call(words, FUTEX_WAIT, 2, 0, 0, 0));
    answer("requeue with another value", call(words, FUTEX_CMP_REQUEUE, 1, 1, words + 1, 2));
    answer("requeue with the value", call(words, FUTEX_CMP_REQUEUE, 1, 1, words + 1, 1));
    answer("wake of less than none by a requeue", call(words, FUTEX_CMP_REQUEUE, -1, 1, words + 1, 1));
    answer("move of less than none", call(words, FUTEX_CMP_REQUEUE, 1, -1, words + 1, 1));
    answer("the same without a comparison", call(words, FUTEX_REQUEUE, 1, -1, words + 1, 0));

    answer("wait where no page is", call(no_page, FUTEX_WAIT, 1, 0, 0, 0));
    answer("wake where no page is", call(no_page, FUTEX_WAKE, 1, 0, 0, 0));
    answer("compare where no page is", call(no_page, FUTEX_CMP_REQUEUE, 1, 1, words, 1));
    answer("move to where no page is", call(words, FUTEX_CMP_REQUEUE, 1, 1, no_page, 1));
    answer("operate where no page is", call(words, FUTEX_WAKE_OP, 1, 1, no_page, 0));
    answer("operate on a word without the right", call(words, FUTEX_WAKE_OP, 1, 1, to_read, 0));
    answer("wait at a word that can be read", call(to_read, FUTEX_WAIT, 2, 0, 0, 0));
    line("it stays", *to_read);

    answer("an operation without a number", call(words, FUTEX_WAKE_OP, 1, 1, words + 1, 5U << 28));
    line("the word stays", words[1]);
    answer("a comparison without a number", call(words, FUTEX_WAKE_OP, 1, 1, words + 2, 6U << 24));
    return 0;
}
