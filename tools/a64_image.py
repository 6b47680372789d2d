"""Images of one header for the tools, and the few encodings that their frames need.

Such an image may not write to memory, so what it prints it prints from its registers, byte by byte from a table."""

import struct

DIGITS = b"0123456789abcdef\n"
HEADERS = 64 + 56
STACK_POINTER = ZERO = 31
MINUS, PLUS, EQUAL, NOT_EQUAL, CARRY_SET, CARRY_CLEAR, OVERFLOW_SET, OVERFLOW_CLEAR = 4, 5, 0, 1, 2, 3, 6, 7


def entry_of(base):
    """Where the code of an image with this base stands, after the headers and the table of digits."""
    return base + HEADERS + len(DIGITS) + -len(DIGITS) % 4


def image(words, base):
    """An image whose one segment, to be read and executed at this base, is the whole file: headers, digits, words."""
    entry = entry_of(base)
    size = entry - base + 4 * len(words)
    header = struct.pack("<16sHHIQQQIHHHHHH", b"\x7fELF\2\1\1", 2, 183, 1, entry, 64, 0, 0, 64, 56, 1, 0, 0, 0)
    segment = struct.pack("<IIQQQQQQ", 1, 5, 0, base, base, size, size, 4096)
    digits = DIGITS + bytes(-len(DIGITS) % 4)
    return header + segment + digits + b"".join(word.to_bytes(4, "little") for word in words)


def set_register(register, value):
    """The moves that give an X register this value: MOVN where that makes fewer of them, or MOVZ, and then MOVK."""
    halves = [value >> 16 * at & 0xFFFF for at in range(4)]
    ones = halves.count(0xFFFF) > halves.count(0)
    rest = [at for at, half in enumerate(halves) if half != (0xFFFF if ones else 0)] or [0]
    first = 0x92800000 | (halves[rest[0]] ^ 0xFFFF) << 5 if ones else 0xD2800000 | halves[rest[0]] << 5
    keeps = [0xF2800000 | at << 21 | halves[at] << 5 | register for at in rest[1:]]
    return [first | rest[0] << 21 | register] + keeps


def move(to, source):
    """MOV (register): ORR with the zero register."""
    return 0xAA0003E0 | source << 16 | to


def add(to, first, second, shift=0):
    """ADD (shifted register), shifted left."""
    return 0x8B000000 | second << 16 | shift << 10 | first << 5 | to


def add_immediate(to, source, number):
    """ADD (immediate), of the stack pointer too."""
    return 0x91000000 | number << 10 | source << 5 | to


def subtract_immediate(to, source, number):
    """SUB (immediate)."""
    return 0xD1000000 | number << 10 | source << 5 | to


def select_increment(to, first, second, condition):
    """CSINC: the first source where the condition holds, and else the second plus 1."""
    return 0x9A800400 | second << 16 | condition << 12 | first << 5 | to


def rotate(to, source, count):
    """ROR (immediate): EXTR of one register twice."""
    return 0x93C00000 | source << 16 | count << 10 | source << 5 | to


def address(to, offset):
    """ADR of the place at this offset in bytes."""
    return 0x10000000 | (offset & 3) << 29 | (offset >> 2 & 0x7FFFF) << 5 | to


def branch_nonzero(register, offset):
    """CBNZ of an X register."""
    return 0xB5000000 | (offset >> 2 & 0x7FFFF) << 5 | register


def branch_link(offset):
    """BL."""
    return 0x94000000 | offset >> 2 & 0x3FFFFFF


def set_flags(nzcv):
    """A comparison of 0 with 0 makes Z, and then CCMP with the condition NE makes these flags."""
    return [0xEB1F03FF, 0xFA5F13E0 | nzcv]


SVC = 0xD4000001
RETURN = 0xD65F03C0


def exit_with(status):
    """The call exit."""
    return set_register(0, status) + set_register(8, 93) + [SVC]


def print_value(value, counter, at, table):
    """A subroutine at this address that prints a register as 16 digits and a new line: x0, x1, x2, x8 and the counter
    are lost. The register is left as it was, since 16 turns of 4 bits are a whole one."""
    digit = 0x92400C00 | value << 5  # and x0, value, #15
    loop = [rotate(value, value, 60), address(1, 0), digit, add(1, 1, 0)]
    loop += set_register(0, 1) + set_register(2, 1) + set_register(8, 64) + [SVC, subtract_immediate(counter, counter, 1)]
    words = set_register(counter, 16)
    words += loop + [branch_nonzero(counter, -4 * len(loop)), address(1, 0)] + set_register(0, 1) + [SVC, RETURN]
    places = [index for index, word in enumerate(words) if word == address(1, 0)]
    for index, byte in zip(places, (0, len(DIGITS) - 1)):
        words[index] = address(1, table + byte - (at + 4 * index))
    return words


def print_all(registers, value, counter, at, base):
    """Code at this address that prints these registers in order and exits with 0."""
    calls = 2 * len(registers)
    after = exit_with(0)
    words = []
    for index, register in enumerate(registers):
        words += [move(value, register), branch_link(4 * (calls + len(after) - 2 * index - 1))]
    return words + after + print_value(value, counter, at + 4 * (calls + len(after)), base + HEADERS)


def print_low(at, base):
    """Code that prints x0 to x15 and TPIDR_EL0."""
    saved = {0: 16, 1: 17, 2: 18, 8: 19}
    words = [move(copy, register) for register, copy in saved.items()] + [0xD53BD040 | 22]  # mrs x22, tpidr_el0
    registers = [saved.get(register, register) for register in range(16)] + [22]
    return words + print_all(registers, 20, 21, at + 4 * len(words), base)


def print_high(at, base):
    """Code that prints x16 to x30, the stack pointer and the flags."""
    words = [move(4, 30), add_immediate(5, STACK_POINTER, 0)]
    for register, fails in ((6, PLUS), (7, NOT_EQUAL), (9, CARRY_CLEAR), (10, OVERFLOW_CLEAR)):
        words.append(select_increment(register, ZERO, ZERO, fails))
    words += [add(6, 7, 6, 1), add(6, 9, 6, 1), add(6, 10, 6, 1)]
    return words + print_all([*range(16, 30), 4, 5, 6], 3, 11, at + 4 * len(words), base)
