// What locks that name their owner refuse.
#include "pi.h"

static struct thread other;
static u32 word, pair[2], is_locked, may_end;

static i64 own_lock(u64 n)
{
    lock_pi(&word, 0);
    store(&is_locked, 1);
    await(&may_end, 1);
    unlock_pi(&word);
    return 0;
}

static i64 with_timeout(u32 *lock, i64 seconds, i64 nanoseconds)
{
    struct time time = {seconds, nanoseconds};
    return lock_pi(lock, &time);
}

// All three operations on a word.
static void show(const char *name, u32 *at)
{
    text(name);
    answer(", lock", lock_pi(at, 0));
    text(name);
    answer(", try", try_lock_pi(at));
    text(name);
    answer(", unlock", unlock_pi(at));
}

int guest(int count, char **arguments)
{
    u32 tid = gettid();
    u32 *no_page = (u32 *)(new_pages(PAGE) + 16), *to_read = (u32 *)new_pages(PAGE);
    munmap((u64)no_page - 16, PAGE);
    mprotect((u64)to_read, PAGE, RIGHT_READ);

    show("free", &word);
    hex_line("the word", word);
    word = tid;
    answer("own, lock", lock_pi(&word, 0));
    answer("own, try", try_lock_pi(&word));
    answer("own, lock with a time that has passed", with_timeout(&word, 0, 0));
    hex_line("the word", (word & OWNER) ^ tid);
    word = 0;
    answer("free, unlock", unlock_pi(&word));
    word = OWNER_DIED;
    answer("of a dead owner, try", try_lock_pi(&word));
    hex_line("the word", word ^ tid);
    answer("unlock", unlock_pi(&word));
    hex_line("the word", word);
    word = OWNER_DIED;
    answer("of a dead owner, lock", lock_pi(&word, 0));
    hex_line("the word", word ^ tid);
    answer("unlock", unlock_pi(&word));

    show("no page", no_page);
    answer("only to be read, lock", lock_pi(to_read, 0));
    answer("only to be read, try", try_lock_pi(to_read));
    answer("at an odd address, lock", lock_pi((u32 *)((u8 *)pair + 2), 0));
    answer("at an odd address, try", try_lock_pi((u32 *)((u8 *)pair + 2)));
    // No thread ever has this number.
    word = 0x3ffffffe;
    answer("of no thread, lock", lock_pi(&word, 0));
    word = 0x3ffffffe;
    answer("of no thread, try", try_lock_pi(&word));
    word = 0x3ffffffe;
    answer("of no thread, unlock", unlock_pi(&word));
    word = 0;
    answer("lock by a clock", futex(&word, FUTEX_LOCK_PI | FUTEX_REAL_TIME, 0, 0, 0, 0));
    answer("unlock by a clock", futex(&word, FUTEX_UNLOCK_PI | FUTEX_REAL_TIME, 0, 0, 0, 0));
    answer("less than no seconds", with_timeout(&word, -1, 0));
    answer("less than no nanoseconds", with_timeout(&word, 0, -1));
    answer("a second of nanoseconds", with_timeout(&word, 0, 1000000000));
    answer("a timeout that can't be read", lock_pi(&word, no_page));
    hex_line("the word", word);
    answer("a free lock and a time that has passed", with_timeout(&word, 0, 0));
    answer("unlock", unlock_pi(&word));

    start(&other, own_lock, 0);
    await(&is_locked, 1);
    answer("of another, try", try_lock_pi(&word));
    answer("of another, unlock", unlock_pi(&word));
    answer("of another, lock with a time that has passed", with_timeout(&word, 0, 1));
    truth("it is the owner still", (word & OWNER) == other.tid);
    store(&may_end, 1);
    join(&other);
    hex_line("the word", word);
    return 0;
}
