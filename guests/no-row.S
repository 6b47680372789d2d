// A word that is no instruction ends a guest by SIGILL, which is status 132.
        .include "lines.inc"

        .globl  _start
_start: text_line "no instruction follows"
        .inst   0
        text_line "it was one"
        finish  0
