// A handler that changes vector registers: the code that was interrupted finds its own again. The frame has a record of
// them, and what a handler writes into it is what the registers have then.
#include "signals.h"

enum { FPSIMD_MAGIC = 0x46508001 };

struct record {
    u32 magic, size, status, control;
    u64 registers[32][2];
};

static volatile u32 times;
static volatile u64 seen[2];
static volatile u32 is_changed;

// All registers at once, to memory and from there.
static inline void keep(u64 *to)
{
    asm volatile("stp q0, q1, [%0]\n\tstp q2, q3, [%0, 32]\n\tstp q4, q5, [%0, 64]\n\tstp q6, q7, [%0, 96]\n\t"
                 "stp q8, q9, [%0, 128]\n\tstp q10, q11, [%0, 160]\n\tstp q12, q13, [%0, 192]\n\t"
                 "stp q14, q15, [%0, 224]\n\tstp q16, q17, [%0, 256]\n\tstp q18, q19, [%0, 288]\n\t"
                 "stp q20, q21, [%0, 320]\n\tstp q22, q23, [%0, 352]\n\tstp q24, q25, [%0, 384]\n\t"
                 "stp q26, q27, [%0, 416]\n\tstp q28, q29, [%0, 448]\n\tstp q30, q31, [%0, 480]"
                 :
                 : "r"(to)
                 : "memory");
}

static inline void give(const u64 *from)
{
    asm volatile("ldp q0, q1, [%0]\n\tldp q2, q3, [%0, 32]\n\tldp q4, q5, [%0, 64]\n\tldp q6, q7, [%0, 96]\n\t"
                 "ldp q8, q9, [%0, 128]\n\tldp q10, q11, [%0, 160]\n\tldp q12, q13, [%0, 192]\n\t"
                 "ldp q14, q15, [%0, 224]\n\tldp q16, q17, [%0, 256]\n\tldp q18, q19, [%0, 288]\n\t"
                 "ldp q20, q21, [%0, 320]\n\tldp q22, q23, [%0, 352]\n\tldp q24, q25, [%0, 384]\n\t"
                 "ldp q26, q27, [%0, 416]\n\tldp q28, q29, [%0, 448]\n\tldp q30, q31, [%0, 480]"
                 :
                 : "r"(from)
                 : "memory");
}

static void scramble(i32 signal, struct info *info, struct context *context)
{
    static u64 others[64] __attribute__((aligned(16)));
    struct record *record = (struct record *)((u8 *)context + 464);
    for (u64 n = 0; n < COUNT(others); n++)
        others[n] = n * 0x0101010101010101;
    if (times == 0) {
        hex_line("the record's magic", record->magic);
        line("its size", record->size);
        line("its status and control", record->status + record->control);
        // The next record ends the list.
        line("the next", *(u64 *)(record + 1));
    }
    seen[0] = record->registers[17][0];
    seen[1] = record->registers[31][1];
    if (is_changed)
        record->registers[17][0] = 123456789;
    give(others);
    times++;
}

// The registers stay as they are from the first to the last line of this.
#define THROUGH(before, after, call)                                                                                   \
    do {                                                                                                               \
        give(before);                                                                                                  \
        call;                                                                                                          \
        keep(after);                                                                                                   \
    } while (0)

static u64 before[64] __attribute__((aligned(16))), after[64] __attribute__((aligned(16)));

static void show(const char *name)
{
    u64 differ = 0;
    for (u64 n = 0; n < COUNT(before); n++)
        differ += before[n] != after[n];
    text(name);
    line(", halves of registers that differ", differ);
    hex_line("seen in the record", seen[0]);
    hex_line("and", seen[1]);
    memset(after, 0, sizeof after);
}

int guest(int count, char **arguments)
{
    i64 pid = getpid(), tid = gettid();
    for (u64 n = 0; n < COUNT(before); n++)
        before[n] = (n + 1) * 0x9e3779b97f4a7c15;
    handle(SIGUSR1, scramble, 0, 0);
    THROUGH(before, after, tgkill(pid, tid, SIGUSR1));
    show("a signal");
    THROUGH(before, after, kill(pid, SIGUSR1));
    show("another");
    is_changed = 1;
    THROUGH(before, after, tgkill(pid, tid, SIGUSR1));
    line("the changed half", after[34]);
    show("a changed record");
    THROUGH(before, after, getpid());
    show("a call");
    line("times", times);
    return 0;
}
