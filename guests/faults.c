// Accesses that fault and are handled: the handler makes the page ready, and the access is made again.
#include "signals.h"

static volatile u32 times;
static volatile struct info seen;
static u64 pages;

static void make_ready(i32 signal, struct info *info, struct context *context)
{
    u64 page = info->address / PAGE * PAGE;
    times++;
    seen = *info;
    if (page < pages || page >= pages + 8 * PAGE || times > 20)
        exit_group(1);
    // Where a page is mapped it gets its rights, and else it is mapped.
    if (mprotect(page, PAGE, RIGHT_READ | RIGHT_WRITE) != 0)
        mmap(page, PAGE, RIGHT_READ | RIGHT_WRITE, MAP_PRIVATE | MAP_ANONYMOUS | MAP_FIXED, -1, 0);
}

static void show(const char *name)
{
    text(name);
    text(": times ");
    number(times);
    text(", code ");
    number(seen.code);
    text(", page ");
    number((seen.address - pages) / PAGE);
    text(", place ");
    number(seen.address % PAGE);
    text("\n");
}

int guest(int count, char **arguments)
{
    u64 value = 0;
    pages = new_pages(8 * PAGE);
    handle(SIGSEGV, make_ready, 0, 0);
    for (u64 page = 0; page < 8; page++)
        *(u64 *)(pages + page * PAGE) = 1000 + page;
    mprotect(pages, PAGE, RIGHT_READ);
    mprotect(pages + PAGE, PAGE, 0);
    munmap(pages + 2 * PAGE, PAGE);
    mprotect(pages + 3 * PAGE, PAGE, 0);
    munmap(pages + 5 * PAGE, 3 * PAGE);

    line("a load from a page that can be read", *(volatile u64 *)pages);
    *(volatile u8 *)(pages + 77) = 5;
    show("a store to a page that can be read");
    line("a load from a page without rights", *(volatile u64 *)(pages + PAGE));
    show("it");
    line("a load where no page is", *(volatile u32 *)(pages + 2 * PAGE + 4));
    show("it");
    *(volatile u32 *)(pages + 2 * PAGE) = 9;
    show("a store there then");

    // Over the end of a page: the second page is the one that lacks the right, and nothing is stored before.
    *(volatile u64 *)(pages + 5 * PAGE - 4) = -1UL;
    show("a store into two pages");
    hex_line("the first of them", *(volatile u32 *)(pages + 5 * PAGE - 4));
    hex_line("the second of them", *(volatile u32 *)(pages + 5 * PAGE));
    *(volatile u64 *)(pages + 6 * PAGE - 4) = 0x1122334455667788;
    show("another");
    memcpy(&value, (void *)(pages + 6 * PAGE - 4), 8);
    hex_line("what was stored", value);
    *(volatile u64 *)(pages + 8 * PAGE - 8) = 1;
    show("a store to the last page");
    return 0;
}
