// Every way in which a load or a store tells its address, with every width and sign.
        .include "lines.inc"

        .globl  _start
_start: adrp    x19, numbers
        add     x19, x19, :lo12:numbers
        sub     sp, sp, #64

        text_line "a scaled offset"
        ldr     x20, [x19, #8]
        show    x20
        ldr     w20, [x19, #8]
        show    x20
        ldrh    w20, [x19, #14]
        show    x20
        ldrb    w20, [x19, #15]
        show    x20

        text_line "signed loads"
        ldrsb   x20, [x19, #15]
        show    x20
        ldrsb   w20, [x19, #15]
        show    x20
        ldrsh   x20, [x19, #14]
        show    x20
        ldrsh   w20, [x19, #14]
        show    x20
        ldrsw   x20, [x19, #12]
        show    x20

        text_line "an offset that is not scaled"
        ldur    x20, [x19, #3]
        show    x20
        add     x21, x19, #16
        ldur    w20, [x21, #-5]
        show    x20
        ldursw  x20, [x21, #-4]
        show    x20
        sturh   w20, [sp, #1]
        ldrh    w20, [sp, #1]
        show    x20

        text_line "an index before and after"
        mov     x21, x19
        ldr     x20, [x21], #8
        show    x20
        ldr     x20, [x21, #8]!
        show    x20
        sub     x22, x21, x19
        show    x22
        ldrsb   x20, [x21], #-16
        show    x20
        sub     x22, x21, x19
        show    x22
        mov     x22, #0x55
        strb    w22, [sp, #-16]!
        ldrb    w20, [sp], #16
        show    x20

        text_line "a register as offset"
        mov     x23, #2
        ldr     x20, [x19, x23, lsl #3]
        show    x20
        ldrh    w20, [x19, x23]
        show    x20
        mov     w23, #-1
        add     x21, x19, #16
        ldr     x20, [x21, w23, sxtw #3]
        show    x20
        ldrb    w20, [x21, w23, sxtw]
        show    x20
        mov     x23, #8
        movk    x23, #7, lsl #32
        ldr     x20, [x19, w23, uxtw]
        show    x20
        mov     x23, #-8
        ldr     x20, [x21, x23, sxtx]
        show    x20

        text_line "pairs"
        ldp     x20, x21, [x19, #8]
        eor     x20, x20, x21
        show    x20
        ldp     w20, w21, [x19, #8]
        sub     x20, x20, x21
        show    x20
        ldpsw   x20, x21, [x19, #8]
        show    x20
        show    x21
        mov     x22, #0x1111
        mov     x23, #0x2222
        stp     x22, x23, [sp, #-16]!
        ldp     x20, x21, [sp], #16
        orr     x20, x20, x21, lsl #16
        show    x20
        stp     w22, w23, [sp, #12]
        ldr     x20, [sp, #12]
        show    x20
        stp     xzr, x23, [sp, #16]
        ldr     x20, [sp, #20]
        show    x20

        text_line "literals"
        ldr     x20, literal
        show    x20
        ldr     w20, literal
        show    x20
        ldrsw   x20, literal
        show    x20
        prfm    pldl1keep, literal
        prfm    pldl1keep, [x19, #8]
        adr     x20, literal
        adr     x21, literal + 8
        sub     x20, x21, x20
        show    x20

        text_line "the stack pointer"
        mov     x20, sp
        sub     sp, sp, #1, lsl #12
        mov     x21, #77
        str     x21, [sp, #4088]
        add     x21, sp, x21, uxtb #3
        sub     x21, x20, x21
        show    x21
        mov     sp, x20
        ldur    x20, [x20, #-8]
        show    x20
        finish  0

        .balign 8
literal:
        .quad   0x8899aabbf1223344

        .data
        .balign 4096
numbers:
        .quad   0x0123456789abcdef, 0xfedcba9876543210, 0x00112233445566aa, 0x1020304050607080
