// Instructions that fault and are handled: the handler tells what it was told, and goes on behind the instruction.
#include "signals.h"

static volatile u32 times;
static volatile i32 last;
static volatile struct info seen;
static volatile u64 fault_pc, resume;

static void skip(i32 signal, struct info *info, struct context *context)
{
    times++;
    last = signal;
    seen = *info;
    fault_pc = context->pc;
    // A branch to a bad place goes on where it was to return.
    context->pc = resume ? resume : context->pc + 4;
    context->registers[10] = 77;
}

extern const char breakpoint[], exclusive[], ordered[], atomic[], null[];

static void show(const char *name, u64 pc, u64 at)
{
    text(name);
    text(": times ");
    number(times);
    text(", signal ");
    number(last);
    text(", code ");
    number(seen.code);
    text(fault_pc == pc ? ", at the instruction" : ", elsewhere");
    text(seen.address == at ? ", with the address\n" : ", with another address\n");
}

static u64 numbers[4] = {1, 2, 3, 4};

// Calls a place that can't be executed.
static void call(u64 at)
{
    asm volatile("adr x9, 1f\n\tstr x9, [%1]\n\tblr %0\n1:" : : "r"(at), "r"(&resume) : "x9", "x10", "x30", "memory");
    resume = 0;
}

int guest(int count, char **arguments)
{
    static const u8 signals[] = {SIGTRAP, SIGBUS, SIGSEGV};
    u64 old = 5, odd = (u64)numbers + 3, ten;
    for (u64 at = 0; at < COUNT(signals); at++)
        handle(signals[at], skip, 0, 0);

    asm volatile("mov x10, #1\nbreakpoint: brk #7\n\tmov %0, x10" : "=r"(ten) : : "x10", "memory");
    show("a breakpoint", (u64)breakpoint, (u64)breakpoint);
    line("what the handler put into a register", ten);
    asm volatile("exclusive: ldxr %0, [%1]" : "+r"(old) : "r"(odd) : "x10", "memory");
    show("an exclusive load", (u64)exclusive, odd);
    asm volatile("ordered: stlr %0, [%1]" : : "r"(old), "r"(odd) : "x10", "memory");
    show("an ordered store", (u64)ordered, odd);
    asm volatile("atomic: ldadd %0, %0, [%1]" : "+r"(old) : "r"(odd + 1) : "x10", "memory");
    show("an atomic addition", (u64)atomic, odd + 1);
    asm volatile("null: ldr %0, [%1]" : "+r"(old) : "r"(8UL) : "x10", "memory");
    show("a load of nothing", (u64)null, 8);
    line("no register changed", old);
    line("no number changed", numbers[0] + numbers[1]);

    call(16);
    show("a branch to nothing", 16, 16);
    call((u64)numbers);
    show("a branch to numbers", (u64)numbers, (u64)numbers);
    call((u64)breakpoint + 2);
    show("a branch to half an instruction", (u64)breakpoint + 2, (u64)breakpoint + 2);
    return 0;
}
