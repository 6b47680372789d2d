// Printing by a C library: formats of whole numbers and texts. Its snprintf clears a structure by MOVI, which
// has no row.
#include "library.h"
#include <inttypes.h>
#include <stdio.h>
#include <stdlib.h>
#include <string.h>

int main(int count, char **arguments)
{
    char *end;
    int length = 0;
    puts("a line");
    printf("%d %i %u %x %X %o %c %s %%\n", -42, 7, 4000000000u, 48879, 48879, 511, 'c', "text");
    printf("[%5d] [%-5d] [%05d] [%+d] [% d] [%#x] [%.3d]\n", 42, 42, 42, 42, 42, 42, 7);
    printf("[%8s] [%-8s] [%.2s] [%*d]\n", "right", "left", "cut", 6, 99);
    printf("%ld %lld %zu\n", INT64_MIN, (long long)INT64_MAX, sizeof length);
    printf("%" PRIu64 " %" PRIx64 "\n", UINT64_MAX, UINT64_MAX);
    printf("%s%n\n", "counted", &length);
    printf("%d\n", length);
    printf("%ld %ld %ld", strtol("  -123abc", &end, 10), strtol("0x7f", 0, 0), strtol("777", 0, 8));
    printf(" rest %s\n", end);
    for (int n = 0; n < 300; n++)
        printf("%d%c", n * n, n % 10 == 9 ? '\n' : ' ');
    fputs("the end\n", stdout);
    fprintf(stderr, "to the other side: %d\n", count);
    return fflush(stdout) == 0 && strcmp(arguments[0], "") != 0 ? 0 : 1;
}
