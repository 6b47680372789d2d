// Bytes and bits: counts, reversals, rotations, fields, signs, checksums, and numbers that aren't aligned.
#include "guest.h"

static u8 bytes[2 * PAGE] __attribute__((aligned(4096)));

static u32 ones(u64 n)
{
    n -= n >> 1 & 0x5555555555555555;
    n = (n & 0x3333333333333333) + (n >> 2 & 0x3333333333333333);
    n = (n + (n >> 4)) & 0x0f0f0f0f0f0f0f0f;
    return (u32)(n * 0x0101010101010101 >> 56);
}

static u64 reversed(u64 n)
{
    u64 result;
    asm("rbit %0, %1" : "=r"(result) : "r"(n));
    return result;
}

static u32 checksum(const u8 *at, u64 count)
{
    u32 sum = ~0u;
    for (u64 i = 0; i < count; i++) {
        sum ^= at[i];
        for (u32 bit = 0; bit < 8; bit++)
            sum = sum >> 1 ^ (sum & 1 ? 0xedb88320 : 0);
    }
    return ~sum;
}

// The checksum of Adler.
static u32 adler(const u8 *at, u64 count)
{
    u32 a = 1, b = 0;
    for (u64 i = 0; i < count; i++) {
        a = (a + at[i]) % 65521;
        b = (b + a) % 65521;
    }
    return b << 16 | a;
}

static u64 random_state = 88172645463325252;

static u64 next_random(void)
{
    random_state ^= random_state << 13;
    random_state ^= random_state >> 7;
    random_state ^= random_state << 17;
    return random_state;
}

int guest(int count, char **arguments)
{
    volatile u64 a = 0x0123456789abcdef;
    volatile i8 low = -5;
    volatile i16 middle = -300;
    volatile i32 high = -70000;
    volatile u32 turn = 13;
    u64 sum = 0;
    line("ones", ones(a));
    line("leading zeros", __builtin_clzl(a));
    line("trailing zeros", __builtin_ctzl(a << 9));
    hex_line("bytes reversed", __builtin_bswap64(a));
    hex_line("the low four reversed", __builtin_bswap32((u32)a));
    hex_line("the low two reversed", __builtin_bswap16((u16)a));
    hex_line("bits reversed", reversed(a));
    hex_line("turned", a >> turn | a << (64 - turn));
    hex_line("the low half turned", (u32)a >> turn | (u32)a << (32 - turn));
    hex_line("a field", a >> 20 & 0x3ffff);
    hex_line("with a field", (a & ~0xfff000UL) | (a >> 40 & 0xfff) << 12);
    line("a signed field", (i64)(a << 24) >> 52);
    hex_line("Gray", a ^ a >> 1);
    line("-5 as a long", (i64)low);
    line("-300 as a long", (i64)middle);
    line("-70000 as a long", (i64)high);
    hex_line("-5 as a short", (u16)low);
    hex_line("-300 as an int", (u32)middle);
    hex_line("checksum", checksum((const u8 *)"123456789", 9));
    hex_line("Adler", adler((const u8 *)"Wikipedia", 9));
    for (u32 i = 0; i < 1000; i++)
        sum += next_random() >> 32;
    hex_line("sum of 1000 random numbers", sum);
    hex_line("the last", random_state);
    // A number of every width on every place about the border of two pages.
    for (u32 i = 0; i < sizeof bytes; i++)
        bytes[i] = (u8)(i * 7 + i / 256);
    sum = 0;
    for (u32 i = PAGE - 9; i <= PAGE + 1; i++) {
        u8 *at = bytes + i;
        u64 eight;
        u32 four;
        u16 two;
        asm volatile("ldr %0, [%1]" : "=r"(eight) : "r"(at) : "memory");
        asm volatile("ldr %w0, [%1]" : "=r"(four) : "r"(at) : "memory");
        asm volatile("ldrh %w0, [%1]" : "=r"(two) : "r"(at) : "memory");
        sum = (sum << 5 | sum >> 59) ^ eight ^ four ^ two;
        asm volatile("str %0, [%1]" : : "r"(eight + four), "r"(at) : "memory");
    }
    hex_line("numbers about the border", sum);
    hex_line("the bytes then", checksum(bytes, sizeof bytes));
    return 0;
}
