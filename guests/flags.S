// The four flags after sums and differences, and what is chosen by them.
        .include "lines.inc"

// Shows N, Z, C and V, a bit each, of which x20 gets a digit.
.macro  flags
        cset    x20, mi
        lsl     x20, x20, #4
        cinc    x20, x20, eq
        lsl     x20, x20, #4
        cinc    x20, x20, cs
        lsl     x20, x20, #4
        cinc    x20, x20, vs
        show    x20
.endm

        .globl  _start
_start: mov     x19, #0x7fffffffffffffff
        mov     x21, #-1
        mov     w22, #0x80000000

        text_line "sums"
        adds    x0, x19, #1
        flags
        adds    x0, x21, #1
        flags
        adds    w0, w22, w22
        flags
        cmn     x21, x21, lsr #1
        flags
        cmn     w21, w22, sxth
        flags

        text_line "differences"
        cmp     x19, x21
        flags
        subs    w0, w22, #1
        flags
        cmp     xzr, xzr
        flags
        cmp     x21, w21, uxtb #4
        flags
        negs    x0, x22
        flags

        text_line "with the carry"
        adds    x0, x21, x21
        adcs    x1, x19, xzr
        mov     x23, x1
        flags
        show    x23
        cmp     xzr, x21
        sbcs    x1, x21, x19
        mov     x23, x1
        flags
        show    x23
        cmp     xzr, xzr
        sbc     w23, w22, w19
        show    x23
        ngc     x23, xzr
        show    x23

        text_line "logical"
        ands    x0, x22, x21, asr #3
        flags
        tst     w21, #0x0f0f0f0f
        flags
        bics    x0, x19, x21, lsl #1
        flags
        tst     x19, #0x8000000000000000
        flags

        text_line "conditional comparisons"
        cmp     x19, x19
        ccmp    x21, #1, #0, eq
        flags
        cmp     x19, x19
        ccmp    x21, #1, #0b1010, ne
        flags
        ccmn    w21, w22, #0b0101, vs
        flags
        ccmn    w21, #31, #0b0110, al
        flags

        text_line "choices"
        cmp     x19, #5
        csel    x23, x19, x21, gt
        show    x23
        csinc   x23, x19, x21, le
        show    x23
        csinv   w23, w19, w21, lt
        show    x23
        csneg   x23, x19, x19, ls
        show    x23
        cset    x23, hi
        show    x23
        csetm   w23, ge
        show    x23

        text_line "branches"
        mov     x23, #0
        cmp     x19, x21
        b.gt    1f
        orr     x23, x23, #1
1:      b.hi    2f
        orr     x23, x23, #2
2:      tbz     x22, #31, 3f
        orr     x23, x23, #4
3:      tbnz    x22, #32, 4f
        orr     x23, x23, #8
4:      cbz     w22, 5f
        orr     x23, x23, #16
5:      lsr     x24, x22, #31
        lsl     x24, x24, #40
        cbz     w24, 6f
        orr     x23, x23, #32
6:      cbnz    x24, 10f
        orr     x23, x23, #64
10:     adr     x24, 11f
        br      x24
        orr     x23, x23, #128
11:     bl      12f
        orr     x23, x23, #256
12:     adr     x24, 11b + 4
        cmp     x24, x30
        cset    x24, eq
        show    x23
        show    x24

        text_line "products and quotients"
        umulh   x23, x21, x21
        show    x23
        smulh   x23, x21, x19
        show    x23
        smull   x23, w22, w21
        show    x23
        umaddl  x23, w22, w21, x21
        show    x23
        msub    x23, x19, x21, x22
        show    x23
        mov     x24, #0x8000000000000000
        sdiv    x23, x24, x21
        show    x23
        sdiv    w23, w21, wzr
        show    x23
        udiv    x23, x19, x22
        show    x23

        text_line "reversals and counts"
        mov     x24, #0x1234
        movk    x24, #0x00f0, lsl #48
        rbit    x23, x24
        show    x23
        rev16   x23, x24
        show    x23
        rev32   x23, x24
        show    x23
        clz     x23, x24
        show    x23
        cls     x23, x21
        show    x23
        cls     w23, w24
        show    x23
        extr    x23, x24, x19, #20
        show    x23
        rorv    w23, w24, w19
        show    x23
        finish  0
