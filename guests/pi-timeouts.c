// Waits for locks that name their owner, with a timeout, which is a time: passed before they begin, passed meanwhile, and
// ended by the lock before their time. The others wait on.
#include "pi.h"

static struct thread thread, patient;
static u32 lock, is_over;
static volatile i64 answer_of_thread, answer_of_patient;

// The time so many nanoseconds from now.
static struct time later(u64 nanoseconds)
{
    struct time time;
    clock_gettime(0, &time);
    time.seconds += (time.nanoseconds + nanoseconds) / 1000000000;
    time.nanoseconds = (time.nanoseconds + nanoseconds) % 1000000000;
    return time;
}

static i64 lock_for(u64 nanoseconds)
{
    struct time time = later(nanoseconds);
    answer_of_thread = lock_pi(&lock, &time);
    store(&is_over, 1);
    if (answer_of_thread == 0)
        unlock_pi(&lock);
    return 0;
}

static i64 lock_at_last(u64 n)
{
    answer_of_patient = lock_pi(&lock, 0);
    unlock_pi(&lock);
    return 0;
}

int guest(int count, char **arguments)
{
    struct time time;
    answer("lock", lock_pi(&lock, 0));
    start(&thread, lock_for, 2000000);
    join(&thread);
    answer("for two milliseconds", answer_of_thread);
    time = later(0);
    start(&thread, lock_for, 0);
    join(&thread);
    answer("until now", answer_of_thread);
    truth("the owner stays", (lock & OWNER) == gettid());

    // One gives up, and one waits on.
    start(&patient, lock_at_last, 0);
    await_waiter(&lock);
    start(&thread, lock_for, 3000000);
    join(&thread);
    answer("behind another", answer_of_thread);
    answer("unlock", unlock_pi(&lock));
    join(&patient);
    answer("the other", answer_of_patient);
    hex_line("the word", lock);

    answer("lock", lock_pi(&lock, 0));
    store(&is_over, 0);
    start(&thread, lock_for, 100000000000000);
    await_waiter(&lock);
    line("it is over", load(&is_over));
    answer("unlock", unlock_pi(&lock));
    join(&thread);
    answer("before its time", answer_of_thread);
    hex_line("the word", lock);
    answer("a free lock, until the beginning", lock_pi(&lock, &(struct time){0, 0}));
    answer("unlock", unlock_pi(&lock));
    return time.seconds < 0;
}
