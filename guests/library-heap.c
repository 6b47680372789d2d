// The heap of a C library: blocks of many sizes, small ones from the break and large ones from mappings, that are made,
// grown, shrunk and given back in any order, and keep their bytes.
#include "library.h"
#include <stdio.h>
#include <stdlib.h>
#include <string.h>

// Every 37th byte of a block is looked at.
enum { BLOCKS = 60, ROUNDS = 500, STEP = 37 };

struct block {
    unsigned char *at;
    size_t size;
    unsigned char first;
};

static struct block blocks[BLOCKS];
static uint64_t made, grown, given_back, wrong;

static void fill(struct block *block)
{
    for (size_t at = 0; at < block->size; at += STEP)
        block->at[at] = (unsigned char)(block->first + at * 7);
}

static void check(const struct block *block, size_t size)
{
    for (size_t at = 0; at < size; at += STEP)
        wrong += block->at[at] != (unsigned char)(block->first + at * 7);
}

static size_t any_size(uint32_t *seed)
{
    uint32_t n = next_number(seed);
    return n % 40 == 0 ? 140000 + n % 60000 : 1 + n % (n % 5 == 0 ? 5000 : 200);
}

int main(void)
{
    uint32_t seed = 1, *cleared, sum = 0;
    char *copy;
    for (int round = 0; round < ROUNDS; round++) {
        struct block *block = &blocks[next_number(&seed) % BLOCKS];
        if (!block->at) {
            block->size = any_size(&seed);
            block->first = (unsigned char)round;
            block->at = malloc(block->size);
            if (!block->at)
                return 1;
            fill(block);
            made++;
        } else if (next_number(&seed) % 3 == 0) {
            size_t size = any_size(&seed), old = block->size;
            block->at = realloc(block->at, size);
            if (!block->at)
                return 2;
            block->size = size;
            check(block, old < size ? old : size);
            fill(block);
            grown++;
        } else {
            check(block, block->size);
            free(block->at);
            block->at = 0;
            given_back++;
        }
    }
    for (int n = 0; n < BLOCKS; n++)
        if (blocks[n].at) {
            check(&blocks[n], blocks[n].size);
            free(blocks[n].at);
            given_back++;
        }
    printf("made %lu, changed %lu, given back %lu, wrong %lu\n", made, grown, given_back, wrong);
    cleared = calloc(500, sizeof *cleared);
    for (int n = 0; cleared && n < 500; n++)
        sum |= cleared[n];
    printf("cleared: %d\n", cleared && sum == 0);
    copy = strdup("a copy");
    printf("%s at a multiple of 16: %d\n", copy, ((uintptr_t)copy & 15) == 0);
    free(copy);
    free(cleared);
    return 0;
}
