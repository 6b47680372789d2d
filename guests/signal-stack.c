// Handlers on a stack of their own.
#include "signals.h"
#include "threads.h"

static u8 stack[32768] __attribute__((aligned(16)));
static volatile u64 at_first, at_second, first_frame;
static volatile i32 flags_then;
static volatile i64 change_then;
static volatile struct signal_stack in_frame;
static volatile u32 overflows;

static int is_on_stack(u64 at) { return at > (u64)stack && at <= (u64)(stack + sizeof stack); }

static void second(i32 signal, struct info *info, struct context *context)
{
    at_second = (u64)&signal;
    truth("the second frame is below the first", (u64)info < first_frame);
}

static void first(i32 signal, struct info *info, struct context *context)
{
    struct signal_stack now_set, other = {(u64)stack, 0, 16384};
    at_first = (u64)&signal;
    first_frame = (u64)info;
    in_frame = context->stack;
    sigaltstack(0, &now_set);
    flags_then = now_set.flags;
    // A change of a stack that isn't in use would go well.
    change_then = flags_then == ON_STACK ? sigaltstack(&other, 0) : 0;
    raise(SIGUSR2);
}

static void show(const char *name)
{
    at_first = at_second = 0;
    text(name);
    text("\n");
    answer("raise", raise(SIGUSR1));
    truth("the first is on the stack", is_on_stack(at_first));
    truth("the second is on the stack", is_on_stack(at_second));
    line("the flags in the first", flags_then);
    answer("a change on the stack", change_then);
    if (in_frame.size != 0) {
        truth("the frame tells the stack", in_frame.at == (u64)stack && in_frame.size == sizeof stack);
        line("the flags in the frame", in_frame.flags);
    }
}

// The pages below the stack can't be used until a handler, on another stack, makes them ready.
static void make_ready(i32 signal, struct info *info, struct context *context)
{
    struct thread *thread = (struct thread *)thread_pointer();
    overflows++;
    if (!is_on_stack((u64)&signal) || info->address - (u64)thread->stack >= 2 * PAGE)
        exit_group(1);
    mprotect((u64)thread->stack, 2 * PAGE, RIGHT_READ | RIGHT_WRITE);
}

__attribute__((noinline)) static u64 deep(u64 depth)
{
    volatile u8 room[256];
    room[depth % sizeof room] = (u8)depth;
    return depth == 0 ? 0 : deep(depth - 1) + room[depth % sizeof room];
}

static i64 overflow(u64 n)
{
    struct signal_stack old, own = {(u64)stack, 0, sizeof stack};
    sigaltstack(0, &old);
    line("the flags of a new thread", old.flags);
    sigaltstack(&own, 0);
    line("the sum", deep(45));
    return 0;
}

int guest(int count, char **arguments)
{
    struct signal_stack set = {(u64)stack, 0, sizeof stack}, old = {1, 1, 1};
    handle(SIGUSR1, first, SA_ONSTACK, 0);
    handle(SIGUSR2, second, SA_ONSTACK, 0);
    answer("what stands", sigaltstack(0, &old));
    line("its flags", old.flags);
    set.size = 1024;
    answer("too small", sigaltstack(&set, 0));
    set.size = sizeof stack;
    set.flags = 4;
    answer("unknown flags", sigaltstack(&set, 0));
    set.flags = 0;
    answer("a stack that can't be read", sigaltstack((void *)16, 0));
    show("without a stack");
    answer("set", sigaltstack(&set, &old));
    line("the flags that stood", old.flags);
    show("with a stack");
    handle(SIGUSR2, second, 0, 0);
    show("with a second handler that doesn't ask for it");
    handle(SIGUSR1, first, 0, 0);
    show("with a first handler that doesn't ask for it");
    sigaltstack(0, &old);
    truth("it stands still", old.at == (u64)stack && old.size == sizeof stack && old.flags == 0);
    set.flags = STACK_DISABLED;
    set.size = 0;
    answer("none", sigaltstack(&set, &old));
    handle(SIGUSR1, first, SA_ONSTACK, 0);
    show("with none");

    handle(SIGSEGV, make_ready, SA_ONSTACK, 0);
    struct thread *thread = (struct thread *)new_pages(sizeof(struct thread) + PAGE);
    mprotect((u64)thread->stack, 2 * PAGE, 0);
    start(thread, overflow, 0);
    join(thread);
    line("overflows", overflows);
    return 0;
}
