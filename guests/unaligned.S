// An exclusive load ends a guest by SIGBUS, which is status 135, where its address isn't a multiple of its size. Other loads
// have no such rule.
        .include "lines.inc"

        .globl  _start
_start: adr     x19, numbers
        ldr     x20, [x19, #12]
        show    x20
        ldaxr   x20, [x19]
        show    x20
        add     x19, x19, #12
        ldar    w20, [x19]
        show    x20
        text_line "an exclusive load follows"
        ldxr    x20, [x19]
        show    x20
        finish  0

        .balign 16
numbers:
        .quad   0x0123456789abcdef, 0xfedcba9876543210, 0x00112233445566aa
