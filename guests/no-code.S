// A branch to a page that has no right to execute ends a guest by SIGSEGV, which is status 139.
        .include "lines.inc"

        .globl  _start
_start: text_line "a branch into the data follows"
        adrp    x19, words
        add     x19, x19, :lo12:words
        ldr     w20, [x19]
        show    x20
        br      x19

        .data
        .balign 4096
words:  mov     x0, #3
        mov     x8, #94
        svc     #0
