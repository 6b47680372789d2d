// Sorting and searching by a C library: numbers, texts and records.
#include "library.h"
#include <stdio.h>
#include <stdlib.h>
#include <string.h>

enum { NUMBERS = 3000, TEXTS = 200 };

struct entry {
    char name[12];
    uint32_t key, place;
};

static uint32_t numbers[NUMBERS];
static char texts[TEXTS][9];
static char *pointers[TEXTS];
static struct entry entries[500];

static int by_number(const void *one, const void *other)
{
    uint32_t a = *(const uint32_t *)one, b = *(const uint32_t *)other;
    return a < b ? -1 : a > b;
}

static int by_text(const void *one, const void *other)
{
    return strcmp(*(char *const *)one, *(char *const *)other);
}

static int by_key(const void *one, const void *other)
{
    const struct entry *a = one, *b = other;
    int order = by_number(&a->key, &b->key);
    return order != 0 ? order : by_number(&a->place, &b->place);
}

int main(void)
{
    uint32_t seed = 7, wrong = 0, found = 0;
    uint64_t sum = 0, after = 0;
    for (int n = 0; n < NUMBERS; n++)
        sum += numbers[n] = next_number(&seed) % 10000;
    qsort(numbers, NUMBERS, sizeof numbers[0], by_number);
    for (int n = 0; n < NUMBERS; n++) {
        after += numbers[n];
        wrong += n > 0 && numbers[n - 1] > numbers[n];
    }
    printf("numbers: %d wrong, the sum is the same: %d\n", wrong, sum == after);
    printf("from %u over %u to %u\n", numbers[0], numbers[NUMBERS / 2], numbers[NUMBERS - 1]);
    for (uint32_t key = 0; key < 10000; key++)
        found += bsearch(&key, numbers, NUMBERS, sizeof numbers[0], by_number) != 0;
    printf("different ones: %u\n", found);

    for (int n = 0; n < TEXTS; n++) {
        for (int at = 0; at < 8; at++)
            texts[n][at] = 'a' + next_number(&seed) % 26;
        pointers[n] = texts[n];
    }
    qsort(pointers, TEXTS, sizeof pointers[0], by_text);
    wrong = 0;
    for (int n = 1; n < TEXTS; n++)
        wrong += strcmp(pointers[n - 1], pointers[n]) > 0;
    printf("texts: %d wrong, %s to %s\n", wrong, pointers[0], pointers[TEXTS - 1]);

    for (uint32_t n = 0; n < 500; n++) {
        entries[n].key = next_number(&seed) % 50;
        entries[n].place = n;
        memcpy(entries[n].name, texts[n % TEXTS], sizeof texts[0]);
    }
    qsort(entries, 500, sizeof entries[0], by_key);
    wrong = 0;
    for (int n = 1; n < 500; n++)
        wrong += by_key(&entries[n - 1], &entries[n]) >= 0;
    printf("records: %d wrong, %s to %s\n", wrong, entries[0].name, entries[499].name);
    return 0;
}
