// What futex_waitv refuses, on one thread, and words that have another value.
#include "waitv.h"

static u32 words[4] = {1, 2, 3, 4};
static struct place places[129];

static i64 call(u64 count) { return futex_waitv(places, count, 0, 0, 0); }

static void prepare(void)
{
    for (u64 at = 0; at < COUNT(places); at++)
        places[at] = (struct place){words[at % 4], &words[at % 4], PRIVATE_WORD, 0};
}

static i64 with_flags(u32 flags)
{
    prepare();
    places[1].flags = flags;
    places[1].value = 7;
    return call(2);
}

static i64 with_timeout(i64 seconds, i64 nanoseconds, u64 clock)
{
    struct time time = {seconds, nanoseconds};
    return futex_waitv(places, 2, 0, &time, clock);
}

int guest(int count, char **arguments)
{
    u8 *odd = (u8 *)words + 2;
    u32 *no_page = (u32 *)new_pages(2 * PAGE), *to_read = (u32 *)new_pages(PAGE);
    struct place *last = (struct place *)((u8 *)no_page + PAGE) - 1;
    *to_read = 1;
    *last = (struct place){2, &words[0], PRIVATE_WORD, 0};
    munmap((u64)no_page + PAGE, PAGE);
    mprotect((u64)to_read, PAGE, RIGHT_READ);
    no_page = (u32 *)((u8 *)no_page + PAGE);

    prepare();
    answer("flags", futex_waitv(places, 2, 1, 0, 0));
    answer("no places", call(0));
    answer("129 places", call(129));
    answer("less than no places", call(-1));
    answer("2^32 places", call(1UL << 32));
    answer("places at 0", futex_waitv(0, 2, 0, 0, 0));
    answer("places that can't be read", futex_waitv((struct place *)no_page, 1, 0, 0, 0));
    answer("places of which the last can't be read", futex_waitv(last, 2, 0, 0, 0));
    answer("a place that can be read to its end", futex_waitv(last, 1, 0, 0, 0));

    answer("a clock of another number", with_timeout(0, 0, 2));
    answer("less than no clock", with_timeout(0, 0, -1));
    answer("such a clock and no timeout", futex_waitv(last, 1, 0, 0, 7));
    answer("less than no seconds", with_timeout(-1, 0, 1));
    answer("less than no nanoseconds", with_timeout(0, -1, 1));
    answer("a second of nanoseconds", with_timeout(0, 1000000000, 0));
    answer("a timeout that can't be read", futex_waitv(places, 2, 0, no_page, 1));
    places[0].flags = 0;
    answer("a bad timeout and a bad place", with_timeout(-1, 0, 1));
    answer("no time and a bad place", with_timeout(0, 0, 1));

    answer("a word of 8 bits", with_flags(FUTEX_PRIVATE));
    answer("a word of 16 bits", with_flags(1 | FUTEX_PRIVATE));
    answer("a word of 64 bits", with_flags(3 | FUTEX_PRIVATE));
    answer("a flag without a name", with_flags(PRIVATE_WORD | 0x100));
    answer("another", with_flags(PRIVATE_WORD | 0x80000000));
    answer("good flags", with_flags(PRIVATE_WORD));
    prepare();
    places[1].reserved = 1;
    places[1].value = 7;
    answer("a reserved word that isn't 0", call(2));
    prepare();
    places[1].at = odd;
    answer("an odd address", call(2));

    prepare();
    places[0].value = 7;
    answer("another value in the first place", call(4));
    prepare();
    places[3].value = 7;
    answer("another value in the last place", call(4));
    answer("the same with a timeout that has passed", futex_waitv(places, 4, 0, &(struct time){0, 1}, 1));
    places[31].value = 9;
    places[3].value = 4;
    answer("another value in the last of 32 places", call(32));
    prepare();
    places[2].at = no_page;
    answer("no page in the third place", call(4));
    places[1].value = 7;
    answer("another value before it", call(4));
    prepare();
    places[0].at = to_read;
    places[0].value = 2;
    answer("a word that can only be read", call(1));
    line("waiters that are left", wake_at(&words[0], ALL) + wake_at(&words[1], ALL) + wake_at(&words[2], ALL));
    return 0;
}
