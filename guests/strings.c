// Functions on strings: lengths, comparisons, searches, moves that overlap, numbers from text and to text, words, sorting.
#include "guest.h"

static int compare(const char *a, const char *b)
{
    while (*a != 0 && *a == *b) {
        a++;
        b++;
    }
    return (u8)*a - (u8)*b;
}

static const char *find(const char *in, const char *what)
{
    u64 length = length_of(what);
    for (; length_of(in) >= length; in++)
        if (memcmp(in, what, length) == 0)
            return in;
    return 0;
}

static void reverse(char *words)
{
    for (u64 low = 0, high = length_of(words); low + 1 < high; low++) {
        char kept = words[low];
        words[low] = words[--high];
        words[high] = kept;
    }
}

static i64 parsed(const char *words)
{
    i64 sign = 1, n = 0;
    if (*words == '-') {
        sign = -1;
        words++;
    }
    for (; *words >= '0' && *words <= '9'; words++)
        n = n * 10 + (*words - '0');
    return sign * n;
}

static void turned(char *words)
{
    for (; *words != 0; words++) {
        char lower = *words | 32;
        if (lower >= 'a' && lower <= 'z')
            *words = (char)(lower - 'a' < 13 ? *words + 13 : *words - 13);
    }
}

static void sort(const char **words, u32 count)
{
    for (u32 at = 1; at < count; at++)
        for (u32 to = at; to > 0 && compare(words[to - 1], words[to]) > 0; to--) {
            const char *kept = words[to];
            words[to] = words[to - 1];
            words[to - 1] = kept;
        }
}

static void text_line(const char *name, const char *words)
{
    text(name);
    text(": ");
    text(words);
    text("\n");
}

// How many bytes one string has to change to become the other.
static u32 distance(const char *a, const char *b)
{
    u32 row[32];
    u32 width = (u32)length_of(b);
    for (u32 at = 0; at <= width; at++)
        row[at] = at;
    for (u32 i = 1; a[i - 1] != 0; i++) {
        u32 corner = row[0];
        row[0] = i;
        for (u32 j = 1; j <= width; j++) {
            u32 above = row[j], best = corner + (a[i - 1] != b[j - 1]);
            if (above + 1 < best)
                best = above + 1;
            if (row[j - 1] + 1 < best)
                best = row[j - 1] + 1;
            corner = above;
            row[j] = best;
        }
    }
    return row[width];
}

int guest(int count, char **arguments)
{
    const char *words[] = {"pear", "apple", "fig", "", "peach", "apples", "Fig", "quince"};
    char buffer[80] = "the quick brown fox jumps over the lazy dog";
    u32 at = 0;
    line("length", length_of(buffer));
    line("compare with itself", compare(buffer, buffer));
    truth("apple before apples", compare("apple", "apples") < 0);
    truth("a high byte is behind", compare("a\xff", "ab") > 0);
    line("fox is at", find(buffer, "fox") - buffer);
    truth("cat is there", find(buffer, "cat") != 0);
    line("the end is at", find(buffer, "") - buffer);
    reverse(buffer);
    text_line("reversed", buffer);
    reverse(buffer);
    memmove(buffer + 4, buffer, 20);
    text_line("moved up", buffer);
    memmove(buffer, buffer + 7, 20);
    text_line("moved down", buffer);
    memset(buffer + 3, '*', 5);
    text_line("set", buffer);
    turned(buffer);
    text_line("turned", buffer);
    line("parsed", parsed("-9223372036854775807"));
    line("parsed to the letter", parsed("12ab"));
    for (u64 base = 2; base <= 16; base += 7) {
        digits(1234567890, base, 1);
        text("\n");
    }
    sort(words, COUNT(words));
    for (; at < COUNT(words); at++) {
        text("[");
        text(words[at]);
        text("] ");
    }
    text("\n");
    line("distance", distance("kitten", "sitting"));
    line("distance from nothing", distance("", "abc"));
    return 0;
}
