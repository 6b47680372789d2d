// A write that is larger than a pipe. It may move fewer bytes than it is given, and the rest is written again.
#include "guest.h"

static char lines[70000];

int guest(int count, char **arguments)
{
    struct vector parts[] = {{lines, 400}, {lines + 400, 600}};
    for (u32 line = 0; line < sizeof lines / 100; line++) {
        char *at = lines + 100 * line;
        memset(at, 'a' + line % 26, 99);
        for (u32 digit = 0, left = line; digit < 4; digit++, left /= 10)
            at[3 - digit] = (char)('0' + left % 10);
        at[99] = '\n';
    }
    put(lines, sizeof lines);
    return writev(1, parts, 2) == 1000 ? 0 : 1;
}
