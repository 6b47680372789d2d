// Standard input that has no bytes is at its end at once, as often as it is read.
#include "guest.h"

int guest(int count, char **arguments)
{
    char buffer[10];
    struct vector part = {buffer, 10};
    answer("read", read(0, buffer, 10));
    answer("read", read(0, buffer, 1));
    answer("readv", readv(0, &part, 1));
    answer("read of no bytes", read(0, buffer, 0));
    answer("close", close(0));
    answer("read", read(0, buffer, 10));
    return 0;
}
