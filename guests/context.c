// The context of a handler: the registers, flags and mask as they were, and what the handler makes of them when it ends.
#include "signals.h"

static volatile u64 pc_then, sp_then, zero, sum, flags_then, mask_then;

static void change(i32 signal, struct info *info, struct context *context)
{
    u64 *registers = context->registers;
    pc_then = context->pc;
    sp_then = context->sp;
    zero = registers[0];
    for (u64 at = 9; at <= 28; at++)
        sum += registers[at] << (at - 9);
    flags_then = context->pstate & 0xf0000000;
    mask_then = context->mask;
    registers[20] += 1000;
    registers[0] = -77;
    context->pstate = (context->pstate & ~0xf0000000) | 0x90000000;
    context->mask = ONLY(SIGUSR2) | ONLY(45);
    // What is in registers now doesn't matter.
    asm volatile("mov x9, #5\n\tmov x21, #6\n\tcmp x9, #6"
                 :
                 :
                 : "x9", "x19", "x20", "x21", "x22", "x23", "x24", "x25", "x26", "x27", "x28", "cc");
}

// Sends the signal to the thread itself with a number in each register from x9 to x28. It stores the registers then, and
// x0, the flags and sp.
void send(u64 pid, u64 tid, u64 signal, u64 *out);
extern const char after_call[];
asm(".balign 4\n"
    "send:\n"
    "    stp x19, x20, [sp, #-112]!\n"
    "    stp x21, x22, [sp, #16]\n"
    "    stp x23, x24, [sp, #32]\n"
    "    stp x25, x26, [sp, #48]\n"
    "    stp x27, x28, [sp, #64]\n"
    "    stp x29, x30, [sp, #80]\n"
    "    str x3, [sp, #96]\n"
    "    mov x9, #9\n"
    "    mov x10, #10\n"
    "    mov x11, #11\n"
    "    mov x12, #12\n"
    "    mov x13, #13\n"
    "    mov x14, #14\n"
    "    mov x15, #15\n"
    "    mov x16, #16\n"
    "    mov x17, #17\n"
    "    mov x18, #18\n"
    "    mov x19, #19\n"
    "    mov x20, #20\n"
    "    mov x21, #21\n"
    "    mov x22, #22\n"
    "    mov x23, #23\n"
    "    mov x24, #24\n"
    "    mov x25, #25\n"
    "    mov x26, #26\n"
    "    mov x27, #27\n"
    "    mov x28, #28\n"
    "    mov x8, #131\n"
    "    cmp x28, x28\n"
    "    svc #0\n"
    "after_call:\n"
    "    cset x1, mi\n"
    "    cset x2, eq\n"
    "    cset x3, cs\n"
    "    cset x4, vs\n"
    "    add x1, x1, x2, lsl #4\n"
    "    add x1, x1, x3, lsl #8\n"
    "    add x1, x1, x4, lsl #12\n"
    "    ldr x3, [sp, #96]\n"
    "    stp x0, x1, [x3], #16\n"
    "    mov x2, sp\n"
    "    stp x2, x8, [x3], #16\n"
    "    stp x9, x10, [x3], #16\n"
    "    stp x11, x12, [x3], #16\n"
    "    stp x13, x14, [x3], #16\n"
    "    stp x15, x16, [x3], #16\n"
    "    stp x17, x18, [x3], #16\n"
    "    stp x19, x20, [x3], #16\n"
    "    stp x21, x22, [x3], #16\n"
    "    stp x23, x24, [x3], #16\n"
    "    stp x25, x26, [x3], #16\n"
    "    stp x27, x28, [x3], #16\n"
    "    ldp x29, x30, [sp, #80]\n"
    "    ldp x27, x28, [sp, #64]\n"
    "    ldp x25, x26, [sp, #48]\n"
    "    ldp x23, x24, [sp, #32]\n"
    "    ldp x21, x22, [sp, #16]\n"
    "    ldp x19, x20, [sp], #112\n"
    "    ret\n");

int guest(int count, char **arguments)
{
    static u64 out[24];
    handle(SIGUSR1, change, 0, 0);
    change_mask(TO_SET, ONLY(SIGTERM));
    send(getpid(), gettid(), SIGUSR1, out);
    truth("it came behind the call", pc_then == (u64)after_call);
    truth("the stack was that of the caller", sp_then == out[2]);
    line("the answer of the call then", zero);
    hex_line("the registers then", sum);
    hex_line("the flags then", flags_then);
    hex_line("the mask then", mask_then);
    line("the answer that the handler made", out[0]);
    hex_line("the flags that it made", out[1]);
    hex_line("the mask that it made", mask());
    text("the registers:");
    for (u64 at = 3; at < 24; at++) {
        text(" ");
        number(out[at]);
    }
    text("\n");
    return 0;
}
