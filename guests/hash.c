// SHA-256 of three messages. What they hash to is told in FIPS 180-4 and its examples.
#include "guest.h"

static const u32 constants[64] = {
    0x428a2f98, 0x71374491, 0xb5c0fbcf, 0xe9b5dba5, 0x3956c25b, 0x59f111f1, 0x923f82a4, 0xab1c5ed5, 0xd807aa98, 0x12835b01,
    0x243185be, 0x550c7dc3, 0x72be5d74, 0x80deb1fe, 0x9bdc06a7, 0xc19bf174, 0xe49b69c1, 0xefbe4786, 0x0fc19dc6, 0x240ca1cc,
    0x2de92c6f, 0x4a7484aa, 0x5cb0a9dc, 0x76f988da, 0x983e5152, 0xa831c66d, 0xb00327c8, 0xbf597fc7, 0xc6e00bf3, 0xd5a79147,
    0x06ca6351, 0x14292967, 0x27b70a85, 0x2e1b2138, 0x4d2c6dfc, 0x53380d13, 0x650a7354, 0x766a0abb, 0x81c2c92e, 0x92722c85,
    0xa2bfe8a1, 0xa81a664b, 0xc24b8b70, 0xc76c51a3, 0xd192e819, 0xd6990624, 0xf40e3585, 0x106aa070, 0x19a4c116, 0x1e376c08,
    0x2748774c, 0x34b0bcb5, 0x391c0cb3, 0x4ed8aa4a, 0x5b9cca4f, 0x682e6ff3, 0x748f82ee, 0x78a5636f, 0x84c87814, 0x8cc70208,
    0x90befffa, 0xa4506ceb, 0xbef9a3f7, 0xc67178f2,
};

static u32 turned(u32 n, u32 by) { return n >> by | n << (32 - by); }

static void mix(u32 *state, const u8 *block)
{
    u32 w[64], s[8];
    for (u32 at = 0; at < 16; at++)
        w[at] = (u32)block[4 * at] << 24 | block[4 * at + 1] << 16 | block[4 * at + 2] << 8 | block[4 * at + 3];
    for (u32 at = 16; at < 64; at++) {
        u32 low = turned(w[at - 15], 7) ^ turned(w[at - 15], 18) ^ w[at - 15] >> 3;
        u32 high = turned(w[at - 2], 17) ^ turned(w[at - 2], 19) ^ w[at - 2] >> 10;
        w[at] = w[at - 16] + low + w[at - 7] + high;
    }
    memcpy(s, state, sizeof s);
    for (u32 at = 0; at < 64; at++) {
        u32 high = turned(s[4], 6) ^ turned(s[4], 11) ^ turned(s[4], 25);
        u32 low = turned(s[0], 2) ^ turned(s[0], 13) ^ turned(s[0], 22);
        u32 one = s[7] + high + ((s[4] & s[5]) ^ (~s[4] & s[6])) + constants[at] + w[at];
        u32 other = low + ((s[0] & s[1]) ^ (s[0] & s[2]) ^ (s[1] & s[2]));
        memmove(s + 1, s, 7 * sizeof s[0]);
        s[4] += one;
        s[0] = one + other;
    }
    for (u32 at = 0; at < 8; at++)
        state[at] += s[at];
}

static void hash(const char *message, u64 length)
{
    u32 state[8] = {0x6a09e667, 0xbb67ae85, 0x3c6ef372, 0xa54ff53a, 0x510e527f, 0x9b05688c, 0x1f83d9ab, 0x5be0cd19};
    u8 tail[128] = {0};
    u64 whole = length / 64 * 64, rest = length - whole, end = rest < 56 ? 64 : 128;
    for (u64 at = 0; at < whole; at += 64)
        mix(state, (const u8 *)message + at);
    memcpy(tail, message + whole, rest);
    tail[rest] = 0x80;
    for (u32 at = 0; at < 8; at++)
        tail[end - 1 - at] = (u8)(length * 8 >> 8 * at);
    for (u64 at = 0; at < end; at += 64)
        mix(state, tail + at);
    for (u32 at = 0; at < 8; at++)
        digits(state[at], 16, 8);
    text("\n");
}

static char letters[1000];

int guest(int count, char **arguments)
{
    hash("abc", 3);
    hash("abcdbcdecdefdefgefghfghighijhijkijkljklmklmnlmnomnopnopq", 56);
    memset(letters, 'a', sizeof letters);
    hash(letters, sizeof letters);
    return 0;
}
