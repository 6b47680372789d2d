// A recursion without an end passes the end of the stack, which is SIGSEGV and status 139.
#include "guest.h"

__attribute__((noinline)) static u64 endless(u64 depth)
{
    volatile u64 block[250];
    block[depth % 250] = depth;
    return (depth == 0 ? 0 : endless(depth + 1)) + block[depth % 250];
}

int guest(int count, char **arguments)
{
    text("a recursion follows\n");
    line("its end", endless(count));
    return 0;
}
