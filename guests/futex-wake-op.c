// FUTEX_WAKE_OP: all operations on the second word, and all comparisons of what it was, by which its waiters are woken.
#include "threads.h"

enum { SET, ADD, OR, AND_NOT, XOR, EQUAL = 0, UNEQUAL, LESS, AT_MOST, GREATER, AT_LEAST, SHIFTED = 8 };

static struct thread threads[2];
static u32 first, second, done;

static i64 wake_op(u32 operation, u32 argument, u32 comparison, u32 compared)
{
    u32 value3 = operation << 28 | comparison << 24 | (argument & 0xfff) << 12 | (compared & 0xfff);
    return futex(&first, FUTEX_WAKE_OP | FUTEX_PRIVATE, 1, 1, &second, value3);
}

static void show_operation(const char *name, u32 operation, u32 before, u32 argument)
{
    i64 result;
    second = before;
    result = wake_op(operation, argument, EQUAL, 0);
    text(name);
    text(": answer ");
    number(result);
    text(", word ");
    hex(second);
    text("\n");
}

static i64 wait_often(u64 n)
{
    u32 *at = n == 0 ? &first : &second;
    while (!load(&done))
        wait_at(at, load(at));
    return 0;
}

// How many are woken where one waits at each word.
static void show_comparison(const char *name, u32 comparison)
{
    static const u32 values[] = {-6, -5, -4, 4, 5, 6, 0x7fffffff, 0x80000000};
    text(name);
    text(":");
    for (i32 compared = -5; compared <= 5; compared += 10)
        for (u32 at = 0; at < COUNT(values); at++) {
            store(&second, values[at]);
            await_waiters(&first, 1);
            await_waiters(&second, 1);
            text(" ");
            number(wake_op(ADD, 0, comparison, compared));
        }
    text("\n");
}

int guest(int count, char **arguments)
{
    show_operation("set 5", SET, 100, 5);
    show_operation("set -3", SET, 100, -3);
    show_operation("add 2047", ADD, 100, 2047);
    show_operation("add -101", ADD, 100, -101);
    show_operation("add 1 to the greatest", ADD, -1, 1);
    show_operation("or 9", OR, 0x30, 9);
    show_operation("or -2048", OR, 1, -2048);
    show_operation("and not 15", AND_NOT, 0xff, 15);
    show_operation("and not -16", AND_NOT, 0xff, -16);
    show_operation("exclusive or 15", XOR, 0x3c, 15);
    show_operation("exclusive or -1", XOR, 0x3c, -1);
    show_operation("set 1 shifted by 31", SHIFTED | SET, 100, 31);
    show_operation("add 1 shifted by 4", SHIFTED | ADD, 100, 4);
    show_operation("or 1 shifted by 0", SHIFTED | OR, 100, 0);
    show_operation("and not 1 shifted by 5", SHIFTED | AND_NOT, 0xff, 5);
    show_operation("exclusive or 1 shifted by 30", SHIFTED | XOR, 0xff, 30);

    start(&threads[0], wait_often, 0);
    start(&threads[1], wait_often, 1);
    show_comparison("equal", EQUAL);
    show_comparison("unequal", UNEQUAL);
    show_comparison("less", LESS);
    show_comparison("at most", AT_MOST);
    show_comparison("greater", GREATER);
    show_comparison("at least", AT_LEAST);

    // What is compared is what the word was.
    store(&second, 5);
    await_waiters(&first, 1);
    await_waiters(&second, 1);
    answer("add 3, and was greater than 4", wake_op(ADD, 3, GREATER, 4));
    line("the word", second);
    await_waiters(&first, 1);
    await_waiters(&second, 1);
    answer("set 1, and was less than 2", wake_op(SET, 1, LESS, 2));
    line("the word", second);

    store(&done, 1);
    for (u64 n = 0; n < 2; n++)
        while (load(&threads[n].alive)) {
            wake_at(n == 0 ? &first : &second, 1);
            sched_yield();
        }
    return 0;
}
