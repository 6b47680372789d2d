// Reads standard input to its end by pieces of several sizes, and tells its lines, words and bytes and its longest line.
#include "guest.h"

static char buffer[300];

int guest(int count, char **arguments)
{
    u64 bytes = 0, lines = 0, words = 0, longest = 0, width = 0, sum = 0, in_word = 0;
    i64 moved;
    for (u32 turn = 0;; turn++) {
        moved = read(0, buffer, 1 + turn * 37 % sizeof buffer);
        if (moved <= 0)
            break;
        for (i64 at = 0; at < moved; at++) {
            u8 byte = (u8)buffer[at];
            bytes++;
            sum = (sum * 31 + byte) % 1000000007;
            if (byte == '\n') {
                lines++;
                longest = width > longest ? width : longest;
                width = 0;
            } else
                width++;
            if (byte == ' ' || byte == '\n')
                in_word = 0;
            else if (!in_word) {
                in_word = 1;
                words++;
            }
        }
    }
    answer("the last read", moved);
    line("lines", lines);
    line("words", words);
    line("bytes", bytes);
    line("the longest line", longest);
    line("a sum over the bytes", sum);
    answer("read behind the end", read(0, buffer, 1));
    answer("read of no bytes", read(0, buffer, 0));
    return 0;
}
