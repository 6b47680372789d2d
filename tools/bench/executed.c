/* A program for tools/bench/decode, which takes the words that it executes: a table, a sort, numbers in decimal and a
   checksum, in whole numbers. */
#include <stdint.h>
static uint32_t table[256];
static char text[4096];
static int words[512];
static uint32_t crc(const char *p, int n) { uint32_t c = ~0u; for (int i = 0; i < n; i++) c = table[(c ^ p[i]) & 255] ^ (c >> 8); return ~c; }
static void sort(int *a, int lo, int hi) { if (lo >= hi) return; int p = a[(lo + hi) / 2], i = lo, j = hi; while (i <= j) { while (a[i] < p) i++; while (a[j] > p) j--; if (i <= j) { int t = a[i]; a[i++] = a[j]; a[j--] = t; } } sort(a, lo, j); sort(a, i, hi); }
static int digits(uint64_t n, char *to) { char b[24]; int k = 0; do { b[k++] = '0' + n % 10; n /= 10; } while (n); for (int i = 0; i < k; i++) to[i] = b[k - 1 - i]; return k; }
int main(void) {
  for (uint32_t i = 0; i < 256; i++) { uint32_t c = i; for (int k = 0; k < 8; k++) c = c & 1 ? 0xedb88320u ^ (c >> 1) : c >> 1; table[i] = c; }
  uint64_t seed = 1; int at = 0;
  for (int i = 0; i < 512; i++) { seed = seed * 6364136223846793005ull + 1; words[i] = seed >> 40; }
  sort(words, 0, 511);
  for (int i = 0; i < 300; i++) { at += digits((uint64_t)words[i] * words[511 - i], text + at); text[at++] = ' '; }
  return crc(text, at) & 127;
}
