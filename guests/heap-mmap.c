// Pages by mmap: they are zeros, they lie apart, a fixed one takes the place of another, and parts are given back.
#include "guest.h"

// The number of bytes with this value.
static u64 count_of(u64 at, u64 length, u8 value)
{
    u64 found = 0;
    for (u64 byte = 0; byte < length; byte++)
        found += ((u8 *)at)[byte] == value;
    return found;
}

// New pages at this address, whatever stands there.
static i64 fixed_pages(u64 at, u64 length)
{
    return mmap(at, length, RIGHT_READ | RIGHT_WRITE, MAP_PRIVATE | MAP_ANONYMOUS | MAP_FIXED, -1, 0);
}

int guest(int count, char **arguments)
{
    enum { PARTS = 10 };
    u64 parts[PARTS], is_apart = 1, is_aligned = 1, at;
    for (u32 part = 0; part < PARTS; part++) {
        u64 length = (part + 1) * 1000;
        parts[part] = new_pages(length);
        is_aligned &= parts[part] % PAGE == 0;
        line("zeros", count_of(parts[part], length, 0));
        memset((void *)parts[part], part + 1, length);
    }
    for (u32 part = 0; part < PARTS; part++) {
        is_apart &= count_of(parts[part], (part + 1) * 1000, part + 1) == (part + 1) * 1000;
        answer("munmap", munmap(parts[part], (part + 1) * 1000));
    }
    truth("aligned", is_aligned);
    truth("apart", is_apart);

    at = new_pages(8 * PAGE);
    memset((void *)at, 7, 8 * PAGE);
    truth("fixed pages stand where it is asked", fixed_pages(at + 2 * PAGE, 2 * PAGE) == (i64)(at + 2 * PAGE));
    line("sevens", count_of(at, 8 * PAGE, 7));
    line("zeros", count_of(at, 8 * PAGE, 0));
    answer("munmap of a page in the middle", munmap(at + 5 * PAGE, PAGE));
    answer("munmap of it again", munmap(at + 5 * PAGE, PAGE));
    line("sevens behind it", count_of(at + 6 * PAGE, 2 * PAGE, 7));
    truth("a fixed page fills the hole", fixed_pages(at + 5 * PAGE, 1) == (i64)(at + 5 * PAGE));
    line("zeros", count_of(at, 8 * PAGE, 0));
    memset((void *)at, 9, 8 * PAGE);
    answer("madvise that pages will be needed", madvise(at, 8 * PAGE, MADV_WILLNEED));
    line("nines", count_of(at, 8 * PAGE, 9));
    answer("madvise that pages aren't needed", madvise(at + PAGE, 3 * PAGE - 100, MADV_DONTNEED));
    line("nines", count_of(at, 8 * PAGE, 9));
    line("zeros", count_of(at, 8 * PAGE, 0));
    answer("munmap of all", munmap(at, 8 * PAGE));
    at = mmap(0, 3 * PAGE, RIGHT_READ | RIGHT_WRITE, MAP_SHARED | MAP_ANONYMOUS, -1, 0);
    memset((void *)at, 5, 3 * PAGE);
    line("fives in shared pages", count_of(at, 3 * PAGE, 5));
    answer("munmap of pages and of what is behind them", munmap(at + PAGE, 2 * PAGE));
    line("fives in the first", count_of(at, PAGE, 5));
    return 0;
}
