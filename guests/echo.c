// Copies standard input to standard output, and what it has counted to standard error.
#include "guest.h"

static char buffer[7000];

int guest(int count, char **arguments)
{
    i64 moved;
    while ((moved = read(0, buffer, sizeof buffer)) > 0)
        put(buffer, moved);
    if (write(2, "copied\n", 7) != 7)
        return 2;
    return moved == 0 ? 0 : 1;
}
