// What stands on the stack at the start: the arguments, and the numbers of the auxiliary vector.
#include "guest.h"

extern char _start[];

static u64 numbers[64];
static u8 has[64];

static int ends_with(const char *words, const char *end)
{
    u64 length = length_of(words), most = length_of(end);
    return length >= most && memcmp(words + length - most, end, most) == 0;
}

int guest(int count, char **arguments)
{
    char **at = arguments + count + 1;
    u64 *pair;
    line("arguments", count);
    truth("the first is the name", ends_with(arguments[0], "first-stack"));
    for (int argument = 1; argument < count; argument++) {
        text("[");
        text(arguments[argument]);
        text("]\n");
    }
    truth("none behind the last", arguments[count] == 0);
    truth("the stack is aligned", ((u64)arguments - 8) % 16 == 0);
    while (*at != 0)
        at++;
    for (pair = (u64 *)(at + 1); pair[0] != 0; pair += 2)
        if (pair[0] < COUNT(numbers)) {
            numbers[pair[0]] = pair[1];
            has[pair[0]] = 1;
        }
    line("size of a page", numbers[6]);
    line("size of a program header", numbers[4]);
    truth("there are headers", numbers[5] > 0);
    // The first header that is to be loaded begins where the image does.
    u64 header = numbers[3];
    for (u64 left = numbers[5]; left > 0 && *(u32 *)header != 1; left--)
        header += numbers[4];
    truth("the image is there", memcmp(*(char **)(header + 16), "\177ELF", 4) == 0);
    truth("the start is the entry", numbers[9] == (u64)_start);
    truth("the user is told", has[11] && numbers[11] == (u64)getuid() && numbers[12] == (u64)geteuid());
    truth("the group is told", has[13] && numbers[13] == (u64)getgid() && numbers[14] == (u64)getegid());
    truth("there are atomic instructions", numbers[16] >> 8 & 1);
    truth("the guest is secure", has[23] && numbers[23] != 0);
    truth("there are random bytes", memcmp((u8 *)numbers[25], (u8 *)numbers[25] + 8, 8) != 0);
    truth("the name of the image is told", ends_with((char *)numbers[31], "first-stack"));
    return count;
}
