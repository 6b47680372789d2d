// Copies of structures and fills of memory as a compiler writes them where it has vector registers: it moves them by LDR,
// STR, LDP and STP of whole registers and makes them by DUP of a general one. All sizes are multiples of 16: for others it
// takes LDUR, STUR and parts of registers, which have no row.
#include "guest.h"

struct small {
    u64 words[2];
};

struct large {
    u8 bytes[112];
};

struct odd {
    u8 bytes[80];
};

static struct small smalls[4];
static struct large larges[8];
static struct odd odds[5];
static u8 room[256];

static u64 hash_of(const void *at, u64 count)
{
    u64 hash = 14695981039346656037UL;
    for (u64 n = 0; n < count; n++)
        hash = (hash ^ ((const u8 *)at)[n]) * 1099511628211UL;
    return hash;
}

static void fill(void *at, u64 count, u32 seed)
{
    for (u64 n = 0; n < count; n++) {
        seed = seed * 1664525 + 1013904223;
        ((u8 *)at)[n] = seed >> 24;
    }
}

__attribute__((noipa)) static void copy_small(struct small *to, const struct small *from) { *to = *from; }
__attribute__((noipa)) static void copy_large(struct large *to, const struct large *from) { *to = *from; }
__attribute__((noipa)) static void copy_odd(struct odd *to, const struct odd *from) { *to = *from; }

__attribute__((noipa)) static void swap_large(struct large *one, struct large *other)
{
    struct large kept = *one;
    *one = *other;
    *other = kept;
}

// An argument and a result that go through memory.
__attribute__((noipa)) static struct large turned(struct large from, u32 by)
{
    struct large to = from;
    for (u32 n = 0; n < sizeof from.bytes; n++)
        to.bytes[(n + by) % sizeof to.bytes] = from.bytes[n];
    return to;
}

__attribute__((noipa)) static void set_16(void *at, u8 value) { __builtin_memset(at, value, 16); }
__attribute__((noipa)) static void set_48(void *at, u8 value) { __builtin_memset(at, value, 48); }
__attribute__((noipa)) static void set_208(void *at, u8 value) { __builtin_memset(at, value, 208); }

// A register with each kind of element, to all of its bytes or to the lower half.
#define DUP(arrangement, width, number)                                                                                \
    do {                                                                                                               \
        asm volatile("dup v7." arrangement ", %" width "1\n\tstr q7, [%0]"                                             \
                     :                                                                                                 \
                     : "r"(room), "r"((u64)(number))                                                                   \
                     : "v7", "memory");                                                                                \
        text(arrangement);                                                                                             \
        for (u64 n = 0; n < 16; n++) {                                                                                 \
            text(" ");                                                                                                 \
            digits(room[n], 16, 2);                                                                                    \
        }                                                                                                              \
        text("\n");                                                                                                    \
    } while (0)

int guest(int count, char **arguments)
{
    fill(smalls, sizeof smalls, 1);
    fill(larges, sizeof larges, 2);
    fill(odds, sizeof odds, 3);
    hex_line("small", hash_of(smalls, sizeof smalls));
    hex_line("large", hash_of(larges, sizeof larges));
    hex_line("odd", hash_of(odds, sizeof odds));
    for (u64 n = 0; n < 3; n++) {
        copy_small(&smalls[(n * 3 + 1) % 4], &smalls[n]);
        copy_large(&larges[(n * 5 + 1) % 8], &larges[n]);
        copy_odd(&odds[(n * 2 + 1) % 5], &odds[n]);
    }
    hex_line("small, copied", hash_of(smalls, sizeof smalls));
    hex_line("large, copied", hash_of(larges, sizeof larges));
    hex_line("odd, copied", hash_of(odds, sizeof odds));
    swap_large(&larges[0], &larges[7]);
    swap_large(&larges[3], &larges[3]);
    hex_line("large, swapped", hash_of(larges, sizeof larges));
    for (u32 n = 0; n < 4; n++)
        larges[n] = turned(larges[n + 4], n * 13);
    hex_line("large, turned", hash_of(larges, sizeof larges));

    // At addresses that are no multiples of 16 too.
    for (u64 at = 0; at < 40; at += 13) {
        fill(room, sizeof room, at);
        set_16(room + at, 0xa5);
        set_48(room + at + 30, at);
        copy_odd((struct odd *)(room + 150 + at), (struct odd *)(room + at));
        hex_line("filled in part", hash_of(room, sizeof room));
    }
    set_208(room + 1, 0x7e);
    hex_line("filled", hash_of(room, sizeof room));

    DUP("16b", "w", 0x1f2e3d4c5b6a7988);
    DUP("8b", "w", 0x1f2e3d4c5b6a7988);
    DUP("8h", "w", 0x1f2e3d4c5b6a7988);
    DUP("4h", "w", 0x1f2e3d4c5b6a7988);
    DUP("4s", "w", 0x1f2e3d4c5b6a7988);
    DUP("2s", "w", 0x1f2e3d4c5b6a7988);
    DUP("2d", "x", 0x1f2e3d4c5b6a7988);
    return 0;
}
