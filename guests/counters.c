// Counters by eventfd2: a read gives the value and makes it 0, or in semaphore mode gives 1 and takes 1 away.
#include "guest.h"

static void show_read(u64 descriptor)
{
    u64 value = 77;
    i64 result = read(descriptor, &value, 8);
    answer("read", result);
    if (result == 8)
        line("the value", value);
}

static void show_write(u64 descriptor, u64 value)
{
    answer("write", write(descriptor, &value, 8));
}

int guest(int count, char **arguments)
{
    u64 values[2] = {5, 6};
    i64 plain = eventfd2(3, NONBLOCK), semaphore = eventfd2(2, NONBLOCK | SEMAPHORE | CLOSE_ON_EXEC), waiting, other;
    answer("eventfd2", plain);
    answer("eventfd2 in semaphore mode", semaphore);
    show_read(plain);
    show_read(plain);
    show_write(plain, 10);
    show_write(plain, 32);
    show_read(plain);
    show_write(plain, 0);
    show_read(plain);
    show_write(plain, -1);
    show_write(plain, -2);
    show_write(plain, 1);
    show_write(plain, 0);
    hex_line("the greatest value", read(plain, values, 8) == 8 ? values[0] : 0);
    answer("read of more than 8 bytes of a counter at 0", read(plain, values, 16));
    show_write(plain, 21);
    answer("read of more than 8 bytes", read(plain, values, 16));
    line("the first", values[0]);
    line("the second stays", values[1]);
    answer("read of 7 bytes", read(plain, values, 7));
    answer("read of no bytes", read(plain, values, 0));
    answer("write of 7 bytes", write(plain, values, 7));
    answer("write of no bytes", write(plain, values, 0));

    show_read(semaphore);
    show_write(semaphore, 2);
    show_read(semaphore);
    show_read(semaphore);
    show_read(semaphore);
    show_read(semaphore);

    waiting = eventfd2(0xffffffff, 0);
    answer("eventfd2 with a great value", waiting);
    show_read(waiting);
    other = dup(waiting);
    show_write(other, 4);
    show_read(waiting);
    answer("nonblocking through the copy", fcntl(other, F_SETFL, NONBLOCK));
    show_read(waiting);
    answer("close", close(waiting));
    show_write(other, 9);
    show_read(other);
    line("the mode", fcntl(plain, F_GETFL, 0) & 3);
    line("the close flag", fcntl(semaphore, F_GETFD, 0));
    return 0;
}
