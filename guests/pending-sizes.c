// The first bytes of the set of pending signals, as many as are asked for.
#include "signals.h"

int guest(int count, char **arguments)
{
    change_mask(TO_SET, -1);
    raise(SIGUSR1);
    raise(31);
    raise(40);
    kill(getpid(), 60);
    for (u64 size = 0; size <= 9; size++) {
        u64 set = 0x5555555555555555;
        text("size ");
        number(size);
        answer("", sigpending(&set, size));
        hex_line("the set", set);
    }
    return 0;
}
