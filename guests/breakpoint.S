// A breakpoint ends a guest by SIGTRAP, which is status 133.
        .include "lines.inc"

        .globl  _start
_start: text_line "a breakpoint follows"
        brk     #7
        text_line "behind it"
        finish  0
