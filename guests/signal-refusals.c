// What the calls on signals refuse.
#include "signals.h"

int guest(int count, char **arguments)
{
    // No process and no thread has this number.
    enum { NOBODY = 0x3fffffff };
    struct action action = {TO_IGNORE, 0, 0, 0};
    u64 set = 0;
    i64 pid = getpid(), tid = gettid();
    answer("kill of signal 65", kill(pid, 65));
    answer("kill of signal -1", kill(pid, -1));
    answer("kill of nobody", kill(NOBODY, SIGUSR1));
    answer("kill of nobody by no signal", kill(NOBODY, 0));
    answer("kill by no signal", kill(pid, 0));
    answer("kill of the own group by no signal", kill(0, 0));
    answer("tkill of 0", tkill(0, SIGUSR1));
    answer("tkill of -1", tkill(-1, SIGUSR1));
    answer("tkill of signal 65", tkill(tid, 65));
    answer("tkill of nobody", tkill(NOBODY, SIGUSR1));
    answer("tkill by no signal", tkill(tid, 0));
    answer("tgkill of 0", tgkill(pid, 0, SIGUSR1));
    answer("tgkill in 0", tgkill(0, tid, SIGUSR1));
    answer("tgkill in -1", tgkill(-1, tid, SIGUSR1));
    answer("tgkill of signal 65", tgkill(pid, tid, 65));
    answer("tgkill of nobody", tgkill(pid, NOBODY, SIGUSR1));
    answer("tgkill in nobody", tgkill(NOBODY, tid, SIGUSR1));
    answer("tgkill by no signal", tgkill(pid, tid, 0));

    answer("action of signal 0", sigaction(0, &action, 0, 8));
    answer("action of signal 65", sigaction(65, &action, 0, 8));
    answer("no action of signal 65", sigaction(65, 0, 0, 8));
    answer("action of KILL", sigaction(SIGKILL, &action, 0, 8));
    answer("action of STOP", sigaction(SIGSTOP, &action, 0, 8));
    answer("what stands for KILL", sigaction(SIGKILL, 0, &action, 8));
    line("the handler", action.handler);
    answer("action with another size", sigaction(SIGUSR1, &action, 0, 16));
    answer("an action that can't be read", sigaction(SIGUSR1, (void *)16, 0, 8));
    answer("a place that can't be written", sigaction(SIGUSR1, 0, (void *)16, 8));

    answer("mask of another size", sigprocmask(TO_BLOCK, &set, 0, 16));
    answer("pending signals of size 16", sigpending(&set, 16));
    answer("pending signals of no size", sigpending(&set, 0));
    return 0;
}
