// readv and writev: many pieces by one call, empty ones among them.
#include "guest.h"

static char one[10], two[3000], three[70000];
static struct vector many[1024];

int guest(int count, char **arguments)
{
    i32 ends[2];
    u64 is_same = 1;
    struct vector words[] = {{"some ", 5}, {0, 0}, {"words ", 6}, {"in pieces\n", 10}, {"", 0}};
    struct vector parts[] = {{one, 10}, {0, 0}, {two, 3000}, {three, 70000}};
    answer("writev", writev(1, words, COUNT(words)));
    answer("writev of nothing", writev(1, words, 0));
    answer("writev of empty pieces", writev(1, words + 1, 1));
    pipe2(ends, NONBLOCK);
    answer("writev", writev(ends[1], words, COUNT(words)));
    answer("readv", readv(ends[0], parts, COUNT(parts)));
    put(one, 10);
    text("|");
    put(two, 11);
    answer("readv of an empty pipe", readv(ends[0], parts, COUNT(parts)));
    answer("readv of nothing", readv(ends[0], parts, 0));

    // 1024 pieces of 3 bytes each, from the end of a table to its front.
    for (u32 at = 0; at < 3000; at++)
        two[at] = (char)(at * 11 / 7);
    for (u32 at = 0; at < 1000; at++) {
        many[at].at = two + 2997 - 3 * at;
        many[at].length = 3;
    }
    answer("writev of 1000 pieces", writev(ends[1], many, 1000));
    answer("writev of 1024 pieces, some of them empty", writev(ends[1], many, 1024));
    answer("readv", readv(ends[0], parts + 3, 1));
    for (u32 at = 0; at < 6000; at++)
        is_same &= three[at] == two[2997 - at % 3000 / 3 * 3 + at % 3];
    truth("the bytes are the same", is_same);

    // A room of bytes by two pieces, and then no more.
    parts[0].at = three;
    parts[0].length = 40000;
    parts[1].at = three + 40000;
    parts[1].length = 25536;
    for (u32 at = 0; at < sizeof three; at++)
        three[at] = (char)(at * at >> 4);
    answer("writev of a room", writev(ends[1], parts, 2));
    answer("writev to a full pipe", writev(ends[1], words, 1));
    memset(three, 0, sizeof three);
    parts[0].length = 1;
    parts[1].at = three + 1;
    parts[1].length = PIPE_ROOM - 1;
    answer("readv of a room", readv(ends[0], parts, 2));
    for (u32 at = 0; at < PIPE_ROOM; at++)
        is_same &= three[at] == (char)(at * at >> 4);
    truth("the bytes are the same", is_same);
    answer("close", close(ends[1]));
    answer("readv at the end", readv(ends[0], parts, 2));
    return 0;
}
