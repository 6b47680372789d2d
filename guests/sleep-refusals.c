// What nanosleep refuses. The rest isn't stored then.
#include "guest.h"

static struct time rest = {77, 88};

static void show(const char *name, i64 seconds, i64 nanoseconds)
{
    struct time length = {seconds, nanoseconds};
    answer(name, nanosleep(&length, &rest));
}

int guest(int count, char **arguments)
{
    show("less than no seconds", -1, 0);
    show("less than no nanoseconds", 0, -1);
    show("a second of nanoseconds", 0, 1000000000);
    show("the least number of nanoseconds", 0, -0x7fffffffffffffff - 1);
    show("no time", 0, 0);
    answer("a length that can't be read", nanosleep((void *)16, &rest));
    answer("no length", nanosleep(0, 0));
    truth("the rest stays", rest.seconds == 77 && rest.nanoseconds == 88);
    return 0;
}
