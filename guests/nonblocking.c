// Calls that would wait, and don't where the open file is nonblocking: EAGAIN until there is something to do.
#include "guest.h"

static char buffer[200];

int guest(int count, char **arguments)
{
    i32 there[2], back[2];
    u64 value = 5, passed = 0, turns = 0;
    struct vector part = {buffer, sizeof buffer};
    i64 counter = eventfd2(0, NONBLOCK);
    pipe2(there, NONBLOCK);
    pipe2(back, 0);
    answer("read of an empty pipe", read(there[0], buffer, sizeof buffer));
    answer("readv of it", readv(there[0], &part, 1));
    answer("read of a counter at 0", read(counter, &value, 8));
    answer("the other pipe becomes nonblocking", fcntl(back[0], F_SETFL, NONBLOCK));
    answer("read of it", read(back[0], buffer, 1));
    hex_line("its write end", fcntl(back[1], F_GETFL, 0));

    // One thread plays both sides: a number goes there, and its double comes back.
    for (u64 n = 1; n <= 20; n++) {
        u64 got;
        while (write(there[1], &n, 8) != 8)
            turns++;
        while (read(there[0], &got, 8) == 8) {
            got *= 2;
            write(back[1], &got, 8);
            value = 1;
            write(counter, &value, 8);
        }
        while (read(back[0], &got, 8) == 8)
            passed += got;
    }
    line("what came back", passed);
    line("turns in vain", turns);
    answer("read of the counter", read(counter, &value, 8));
    line("its value", value);
    answer("read of it again", read(counter, &value, 8));
    close(there[1]);
    answer("read at the end of a pipe", read(there[0], buffer, 1));
    answer("read of the pipe that has a writer", read(back[0], buffer, 1));
    answer("the counter waits again", fcntl(counter, F_SETFL, 0));
    hex_line("its status", fcntl(counter, F_GETFL, 0));
    value = -2;
    answer("the greatest value", write(counter, &value, 8));
    fcntl(counter, F_SETFL, NONBLOCK);
    value = 1;
    answer("one more", write(counter, &value, 8));
    return 0;
}
