// The names and numbers of the system and of the process, as far as they are the same everywhere.
#include "guest.h"

static char names[6][65];
static u32 word;

int guest(int count, char **arguments)
{
    answer("uname", uname((u64)names));
    text(names[0]);
    text("\n");
    text(names[4]);
    text("\n");
    truth("there is a release", names[2][0] != 0);
    truth("the process has a number", getpid() > 0);
    truth("the number stays", getpid() == getpid());
    truth("the first thread has the same", gettid() == getpid());
    truth("set_tid_address tells it", set_tid_address((u64)&word) == gettid());
    truth("set_tid_address of nothing tells it", set_tid_address(0) == gettid());
    truth("there is a parent", getppid() > 0);
    truth("it is another", getppid() != getpid());
    truth("the user is the effective one", getuid() == geteuid());
    truth("the group is the effective one", getgid() == getegid());
    answer("sched_yield", sched_yield());
    answer("a call without a number", no_such_call());
    exit(0x1234);
    return 0;
}
