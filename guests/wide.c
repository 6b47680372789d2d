// Numbers of 128 bits: sums with carries, products, shifts by variable counts, comparisons and quotients.
#include "guest.h"

struct quotient {
    u128 quotient;
    u128 rest;
};

// Long division, bit by bit.
__attribute__((noinline)) static struct quotient divide(u128 a, u128 b)
{
    struct quotient q = {0, 0};
    for (int bit = 127; bit >= 0; bit--) {
        q.rest = q.rest << 1 | (a >> bit & 1);
        if (q.rest >= b) {
            q.rest -= b;
            q.quotient |= (u128)1 << bit;
        }
    }
    return q;
}

static void wide_hex(const char *name, u128 n)
{
    text(name);
    text(": ");
    digits((u64)(n >> 64), 16, 16);
    digits((u64)n, 16, 16);
    text("\n");
}

static void wide(const char *name, u128 n)
{
    char buffer[40];
    u32 at = sizeof buffer;
    do {
        struct quotient q = divide(n, 10);
        buffer[--at] = '0' + (char)q.rest;
        n = q.quotient;
    } while (n != 0);
    text(name);
    text(": ");
    put(buffer + at, sizeof buffer - at);
    text("\n");
}

__attribute__((noinline)) static u128 left(u128 a, u32 by) { return a << by; }
__attribute__((noinline)) static u128 right(u128 a, u32 by) { return a >> by; }
__attribute__((noinline)) static i128 signed_right(i128 a, u32 by) { return a >> by; }
__attribute__((noinline)) static u128 product(u128 a, u128 b) { return a * b; }
__attribute__((noinline)) static int is_less(u128 a, u128 b) { return a < b; }
__attribute__((noinline)) static int is_signed_less(i128 a, i128 b) { return a < b; }

// A power modulo a number of 64 bits.
static u64 power(u64 base, u64 exponent, u64 modulus)
{
    u64 result = 1;
    for (; exponent != 0; exponent >>= 1) {
        if (exponent & 1)
            result = (u64)divide((u128)result * base, modulus).rest;
        base = (u64)divide((u128)base * base, modulus).rest;
    }
    return result;
}

static u64 common_divisor(u64 a, u64 b)
{
    while (b != 0) {
        u64 rest = a % b;
        a = b;
        b = rest;
    }
    return a;
}

int guest(int count, char **arguments)
{
    u128 top = (u128)1 << 127, all = ~(u128)0, factorial = 1;
    u128 a = (u128)0x0123456789abcdef << 64 | 0xfedcba9876543210;
    u64 high;
    wide("2^127", top);
    wide("2^128 - 1", all);
    wide_hex("a", a);
    wide_hex("a + a", a + a);
    wide_hex("0 - a", -a);
    wide_hex("a * 1000000007", product(a, 1000000007));
    wide_hex("a * a", product(a, a));
    for (u32 by = 1; by < 128; by += 42) {
        wide_hex("a to the left", left(a, by));
        wide_hex("2^127 to the right", right(top, by));
        wide_hex("2^127 to the right with its sign", (u128)signed_right((i128)top, by));
    }
    truth("2^127 is less than a", is_less(top, a));
    truth("2^127 is less than a with its sign", is_signed_less((i128)top, (i128)a));
    for (u32 n = 2; n <= 33; n++)
        factorial *= n;
    wide("33!", factorial);
    wide("33! / 2^31", divide(factorial, (u128)1 << 31).quotient);
    wide("2^128 - 1 over 12345678901234567890", divide(all, 12345678901234567890UL).quotient);
    wide("its rest", divide(all, 12345678901234567890UL).rest);
    high = (u64)((i128)-5 * 0x7fffffffffffffff >> 64);
    hex_line("the upper half of a signed product", high);
    high = (u64)((u128)0xfffffffffffffffb * 0x7fffffffffffffff >> 64);
    hex_line("the upper half of a product", high);
    hex_line("3^1000 modulo 2^61 - 1", power(3, 1000, 0x1fffffffffffffff));
    line("the common divisor of 3^20 and 6^10", common_divisor(3486784401, 60466176));
    line("-7 / 2", -7 / (i64)(count + 1));
    line("-7 % 2", -7 % (i64)(count + 1));
    return 0;
}
