// Tables in the segments of constants, of data and of zeros, a switch that becomes a table of jumps, and functions in a
// table.
#include "guest.h"

static const u32 powers[] = {1, 3, 9, 27, 81, 243, 729, 2187, 6561, 19683, 59049};
static const char *const days[] = {"Monday", "Tuesday", "Wednesday", "Thursday", "Friday", "Saturday", "Sunday"};
static u16 counts[4] = {100, 200, 300, 400};
static i8 small[5] = {-1, -128, 127, 0, 64};
static u64 zeros[1500];
static const struct {
    u16 key;
    u8 kind;
    u32 value;
} records[] = {{2, 1, 20}, {5, 2, 50}, {11, 3, 110}, {17, 1, 170}, {40, 2, 400}, {77, 3, 770}};

static u64 add(u64 a, u64 b) { return a + b; }
static u64 subtract(u64 a, u64 b) { return a - b; }
static u64 times(u64 a, u64 b) { return a * b; }
static u64 larger(u64 a, u64 b) { return a > b ? a : b; }

static u64 (*operations[])(u64, u64) = {add, subtract, times, larger};

// The compiler makes a table of jumps of this.
__attribute__((noinline)) static void name_of(u32 operation)
{
    switch (operation) {
    case 0: text("push "); counts[0]++; break;
    case 1: text("pop "); counts[1]--; break;
    case 2: text("add "); counts[2] += 2; break;
    case 3: text("multiply "); counts[3] *= 2; break;
    case 4: text("swap "); counts[0] += 5; break;
    case 5: text("halt "); counts[1] = 0; break;
    case 6: text("jump "); counts[2] ^= 1; break;
    case 7: text("call "); counts[3]--; break;
    default: text("unknown "); break;
    }
}

// A small machine whose program stands in the constants: 10 times 4, and then 2 more.
static const u8 program[] = {0, 10, 0, 4, 3, 0, 2, 2, 5};

static u64 run(const u8 *code)
{
    u64 stack[8];
    u32 top = 0;
    for (;;) {
        u8 operation = *code++;
        name_of(operation);
        switch (operation) {
        case 0: stack[top++] = *code++; break;
        case 1: top--; break;
        case 2: top--; stack[top - 1] += stack[top]; break;
        case 3: top--; stack[top - 1] *= stack[top]; break;
        default: return stack[top - 1];
        }
    }
}

// The record with this key, or none.
static int find(u16 key)
{
    int low = 0, high = COUNT(records) - 1;
    while (low <= high) {
        int middle = (low + high) / 2;
        if (records[middle].key == key)
            return middle;
        if (records[middle].key < key)
            low = middle + 1;
        else
            high = middle - 1;
    }
    return -1;
}

int guest(int count, char **arguments)
{
    u64 sum = 0;
    for (u32 at = 0; at < COUNT(powers); at++)
        sum += powers[at];
    line("sum of powers", sum);
    for (u32 at = 0; at < COUNT(days); at += 3) {
        text(days[at]);
        text("\n");
    }
    line("the program answers", run(program));
    name_of(4);
    name_of(6);
    name_of(7);
    name_of(1);
    name_of(60);
    text("\n");
    for (u32 at = 0; at < COUNT(counts); at++)
        line("count", counts[at]);
    for (u32 at = 0; at < COUNT(small); at++)
        line("small", small[at]);
    for (u32 at = 0; at < COUNT(operations); at++)
        line("operation on 21 and 2", operations[at](21, 2));
    line("key 17", find(17));
    line("key 77", records[find(77)].value);
    line("key 18", find(18));
    for (u32 at = 0; at < COUNT(zeros); at++)
        sum += zeros[at];
    line("the sum with zeros", sum);
    zeros[1499] = 8;
    zeros[0] = 1;
    line("the first and the last", zeros[0] + zeros[1499] + zeros[750]);
    return 0;
}
