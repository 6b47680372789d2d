// A thread ends the guest: it sends the first one a signal that nobody handles, which is status 138.
#include "signals.h"
#include "threads.h"

static struct thread thread;
static u32 never;

static i64 work(u64 n)
{
    await_waiters(&never, 1);
    raise(SIGCHLD);
    raise(SIGWINCH);
    text("a signal follows\n");
    tgkill(getpid(), n, SIGUSR1);
    wait_at(&never, 0);
    text("after the end\n");
    return 0;
}

int guest(int count, char **arguments)
{
    start(&thread, work, gettid());
    for (;;)
        wait_at(&never, 0);
    return 0;
}
