// The way back from a handler: by code of the guest's own, which the action names, and by that of the system.
#include "signals.h"

static volatile u64 came_from, frame_at;
u64 times_back;

// Counts, and goes back. No register of the handler's is needed any more.
extern const char own_way_back[];
asm(".balign 4\n"
    "own_way_back:\n"
    "    adrp x9, times_back\n"
    "    ldr x10, [x9, :lo12:times_back]\n"
    "    add x10, x10, #1\n"
    "    str x10, [x9, :lo12:times_back]\n"
    "    mov x8, #139\n"
    "    svc #0\n");

static void note(i32 signal, struct info *info, struct context *context)
{
    came_from = (u64)__builtin_return_address(0);
    frame_at = (u64)info;
}

static void set(u64 flags, const char *restorer)
{
    struct action action = {(u64)note, SA_SIGINFO | flags, (u64)restorer, 0};
    sigaction(SIGUSR1, &action, 0, 8);
}

int guest(int count, char **arguments)
{
    struct action old;
    set(SA_RESTORER, own_way_back);
    answer("raise", raise(SIGUSR1));
    line("times by the own way", times_back);
    truth("the handler returns to it", came_from == (u64)own_way_back);
    truth("the frame is a multiple of 16", frame_at % 16 == 0);
    sigaction(SIGUSR1, 0, &old, 8);
    truth("it is told", old.restorer == (u64)own_way_back && (old.flags & SA_RESTORER) != 0);
    set(0, own_way_back);
    answer("raise", raise(SIGUSR1));
    line("times by the own way", times_back);
    truth("the handler returns elsewhere", came_from != (u64)own_way_back && came_from != 0);
    set(SA_RESTORER, own_way_back);
    for (u64 i = 0; i < 10; i++)
        raise(SIGUSR1);
    line("times by the own way", times_back);
    return 0;
}
