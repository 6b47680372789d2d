// A branch to an address that isn't a multiple of 4 ends a guest by SIGBUS, which is status 135.
        .include "lines.inc"

        .globl  _start
_start: text_line "a branch follows"
        adr     x19, 1f + 2
        blr     x19
1:      text_line "it went well"
        finish  0
