// Functions that call themselves and one another, to some depth of the stack.
#include "guest.h"

__attribute__((noinline)) static u64 fibonacci(u64 n) { return n < 2 ? n : fibonacci(n - 1) + fibonacci(n - 2); }

__attribute__((noinline)) static u64 ackermann(u64 m, u64 n)
{
    if (m == 0)
        return n + 1;
    return n == 0 ? ackermann(m - 1, 1) : ackermann(m - 1, ackermann(m, n - 1));
}

// The moves that carry a tower from one peg to another by way of the third. The last ones are kept.
static u64 moves;
static u8 last_from, last_to;

__attribute__((noinline)) static void carry(u32 height, u8 from, u8 to, u8 over)
{
    if (height == 0)
        return;
    carry(height - 1, from, over, to);
    moves++;
    last_from = from;
    last_to = to;
    carry(height - 1, over, to, from);
}

// In how many ways so many queens stand on a board of that size and none attacks another.
__attribute__((noinline)) static u64 queens(u32 all, u32 columns, u32 left, u32 right)
{
    u64 ways = 0;
    if (columns == all)
        return 1;
    for (u32 free = all & ~(columns | left | right); free != 0; free &= free - 1) {
        u32 place = free & -free;
        ways += queens(all, columns | place, (left | place) << 1, (right | place) >> 1);
    }
    return ways;
}

__attribute__((noinline)) static int is_odd(u32 n);
__attribute__((noinline)) static int is_even(u32 n) { return n == 0 ? 1 : is_odd(n - 1) & 1; }
__attribute__((noinline)) static int is_odd(u32 n) { return n == 0 ? 0 : is_even(n - 1) & 1; }

// Each call keeps a block of its own on the stack.
__attribute__((noinline)) static u64 deep(u32 depth)
{
    volatile u64 block[8];
    for (u32 at = 0; at < 8; at++)
        block[at] = depth + at;
    u64 below = depth == 0 ? 0 : deep(depth - 1);
    return below + block[depth % 8];
}

// All orders of these letters, the last letter moving fastest.
static void orders(char *letters, u32 from, u32 count)
{
    if (from == count) {
        put(letters, count);
        text(" ");
        return;
    }
    for (u32 at = from; at < count; at++) {
        char kept = letters[from];
        letters[from] = letters[at];
        letters[at] = kept;
        orders(letters, from + 1, count);
        letters[at] = letters[from];
        letters[from] = kept;
    }
}

int guest(int count, char **arguments)
{
    char letters[] = "abcd";
    line("fibonacci of 20", fibonacci(20));
    line("ackermann of 2 and 40", ackermann(2, 40));
    carry(12, 1, 3, 2);
    line("moves of a tower of 12", moves);
    line("the last from", last_from);
    line("the last to", last_to);
    line("queens on a board of 6", queens(63, 0, 0, 0));
    line("queens on a board of 7", queens(127, 0, 0, 0));
    truth("1500 is even", is_even(1500));
    truth("1501 is even", is_even(1501));
    line("a depth of 1000", deep(1000));
    orders(letters, 0, 4);
    text("\n");
    return 0;
}
