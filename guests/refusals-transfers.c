// What read, write, readv and writev refuse, and with which error.
#include "guest.h"

enum { CLOSED = 77 };

static char buffer[16];

int guest(int count, char **arguments)
{
    i32 ends[2];
    u64 hole = new_pages(PAGE);
    struct vector part = {buffer, 16}, negative[] = {{buffer, 4}, {buffer, 1UL << 63}}, nowhere = {(void *)hole, 16};
    munmap(hole, PAGE);
    pipe2(ends, NONBLOCK);
    answer("read of a closed one", read(CLOSED, buffer, 1));
    answer("read of no bytes of a closed one", read(CLOSED, buffer, 0));
    answer("read of a negative number", read(-1, buffer, 1));
    answer("read of a write end", read(ends[1], buffer, 1));
    answer("read of no bytes of a write end", read(ends[1], buffer, 0));
    answer("write to a closed one", write(CLOSED, buffer, 1));
    answer("write to a read end", write(ends[0], buffer, 1));
    answer("write of no bytes to a read end", write(ends[0], buffer, 0));
    answer("write from nowhere", write_at(ends[1], hole, 16));
    answer("write of no bytes from nowhere", write_at(ends[1], hole, 0));
    answer("read of an empty pipe", read(ends[0], buffer, 16));
    write(ends[1], buffer, 16);
    answer("read to nowhere", read_at(ends[0], hole, 16));
    answer("readv of a closed one", readv(CLOSED, &part, 1));
    answer("readv of a write end", readv(ends[1], &part, 1));
    answer("readv of too many", readv(ends[0], &part, 1025));
    answer("readv of a negative count", readv(ends[0], &part, -1));
    answer("readv of pieces from nowhere", readv_at(ends[0], hole, 1));
    answer("readv of a negative length", readv(ends[0], negative, 2));
    answer("writev to a closed one", writev(CLOSED, &part, 1));
    answer("writev to a read end", writev(ends[0], &part, 1));
    answer("writev of too many", writev(ends[1], &part, 1025));
    answer("writev of a negative count", writev(ends[1], &part, -1));
    answer("writev of pieces from nowhere", writev_at(ends[1], hole, 1));
    answer("writev of a negative length", writev(ends[1], negative, 2));
    answer("writev from nowhere", writev(ends[1], &nowhere, 1));
    answer("uname to nowhere", uname(hole));
    return 0;
}
