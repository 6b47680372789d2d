// Sorting in three ways, by a function that is passed on, and a queue in a heap.
#include "guest.h"

static u32 numbers[3][600];

static int by_size(const u32 *a, const u32 *b) { return *a < *b ? -1 : *a > *b; }
static int by_last_byte(const u32 *a, const u32 *b)
{
    u32 x = *a << 24 | *a >> 8, y = *b << 24 | *b >> 8;
    return by_size(&x, &y);
}

typedef int order(const u32 *, const u32 *);

__attribute__((noinline)) static void quick(u32 *at, i64 low, i64 high, order *compare)
{
    while (low < high) {
        u32 middle = at[(low + high) / 2];
        i64 i = low, j = high;
        while (i <= j) {
            while (compare(at + i, &middle) < 0)
                i++;
            while (compare(at + j, &middle) > 0)
                j--;
            if (i <= j) {
                u32 kept = at[i];
                at[i++] = at[j];
                at[j--] = kept;
            }
        }
        quick(at, low, j, compare);
        low = i;
    }
}

static u32 other[600];

static void merge(u32 *at, u32 low, u32 high, order *compare)
{
    if (high - low < 2)
        return;
    u32 middle = (low + high) / 2, i = low, j = middle, to = low;
    merge(at, low, middle, compare);
    merge(at, middle, high, compare);
    while (to < high)
        other[to++] = j == high || (i < middle && compare(at + i, at + j) <= 0) ? at[i++] : at[j++];
    memcpy(at + low, other + low, (high - low) * sizeof *at);
}

static void heap(u32 *at, u32 count, order *compare)
{
    for (u32 round = count / 2 + count - 1; round > 0; round--) {
        u32 size = count, parent = round - (count - 1) - 1;
        if (round < count) {
            u32 kept = at[0];
            size = round;
            at[0] = at[round];
            at[round] = kept;
            parent = 0;
        }
        for (;;) {
            u32 child = 2 * parent + 1;
            if (child >= size)
                break;
            if (child + 1 < size && compare(at + child, at + child + 1) < 0)
                child++;
            if (compare(at + parent, at + child) >= 0)
                break;
            u32 kept = at[parent];
            at[parent] = at[child];
            at[child] = kept;
            parent = child;
        }
    }
}

static u64 digest(const u32 *at, u32 count)
{
    u64 result = 0;
    for (u32 i = 0; i < count; i++)
        result = (result ^ at[i]) * 0x100000001b3;
    return result;
}

static int is_sorted(const u32 *at, u32 count, order *compare)
{
    for (u32 i = 1; i < count; i++)
        if (compare(at + i - 1, at + i) > 0)
            return 0;
    return 1;
}

int guest(int count, char **arguments)
{
    order *orders[] = {by_size, by_last_byte};
    for (u32 kind = 0; kind < 2; kind++) {
        u32 state = 1;
        for (u32 at = 0; at < 600; at++) {
            state = state * 1664525 + 1013904223;
            numbers[0][at] = numbers[1][at] = numbers[2][at] = state >> 4;
        }
        quick(numbers[0], 0, 599, orders[kind]);
        merge(numbers[1], 0, 600, orders[kind]);
        heap(numbers[2], 600, orders[kind]);
        for (u32 at = 0; at < 3; at++) {
            truth("sorted", is_sorted(numbers[at], 600, orders[kind]));
            hex_line("digest", digest(numbers[at], 600));
        }
        line("the least", numbers[2][0]);
        line("the greatest", numbers[2][599]);
    }
    return 0;
}
