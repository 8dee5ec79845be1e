// How near the estimate of crates/root_estimates/src/estimate.rt is, of which its contracts say nothing: the same steps in C, over every significand of a single
// at both parities of the exponent, RANDOM doubles (20 million), as many next to powers of 4, and doubles next to squares.
//     cc -O2 -o /tmp/root_estimate bench/root_estimate.c -lm && /tmp/root_estimate [RANDOM]
// "to the digits": roots that the check sends on to the digit loop. "past 2": the root is more than q + 2.
// "wrong": the host's root is another.
#include <math.h>
#include <stdint.h>
#include <stdio.h>
#include <stdlib.h>
#include <string.h>
typedef uint64_t u64;

static const u64 SEEDS[16] = {
    0xB504996F0E9BB427, 0xAAAAA3D40B0F9720, 0xA1E8BBEE089B811F, 0x9A5FEB0506DC6FFB,
    0x93CD82CF058F624F, 0x8E012BA704975738, 0x88D6D43903D44E0E, 0x84330889033F4666,
    0xFFFF55CE14A9FEC8, 0xF15BB1170FA7D5BC, 0xE4F927370C2FB69D, 0xDA51666B09B49E5E,
    0xD1061FEF07DD8B09, 0xC8D2F1AF067E7B59, 0xC184E197056E6E66, 0xBAF513DE04986390,
};
static u64 loops, past, wrong;

static u64 radicand(u64 y) { return y < (1ull << 52) ? y * 2 + (1ull << 53) : y; }

static u64 inverse(u64 y, u64 top) {
    u64 c = SEEDS[y >> 49], t = (y >> 33) % 65536;
    u64 r = ((c >> 28) - (c % 65536 * t - (c >> 16) % 65536 * (t * t >> 16))) >> 20;
    u64 factor = 0xC000000000000000ull - r * r * top;
    return (r * (factor >> 32)) >> 16;
}

static u64 nearest(u64 q, u64 rest) {
    if (rest > 5 * q + 6) {
        loops++;
        return 0;
    }
    past += rest > 4 * q + 4;
    return q + (q < rest) + (3 * q + 2 < rest);
}

static u64 nearest24(u64 y) {
    u64 x = radicand(y), top = x >> 22, q = top * inverse(y, top) >> 38;
    return nearest(q, x / 64 - q * q);
}

static u64 nearest53(u64 y) {
    u64 x = radicand(y), top = x >> 22, n = inverse(y, top), h = top * n >> 35;
    u64 a = x - h * h, l = (a % (1ull << 32)) * n >> 32;
    u64 b = (a << 26) - 2 * h * l, rest = (b << 26) - l * l;
    if (((a | b) >> 31) != 0) {
        loops++;
        return 0;
    }
    return nearest((h << 26) + l, rest);
}

static void single(uint32_t w) {
    u64 kept = nearest24((u64)(w % 0x1000000) << 29), field = w >> 23;
    uint32_t r = (uint32_t)((field + field % 2 + 124) * 0x400000 + kept), s;
    float f;
    memcpy(&f, &w, 4);
    f = sqrtf(f);
    memcpy(&s, &f, 4);
    wrong += kept > 0 && r != s;
}

static void twice(u64 w) {
    u64 kept = nearest53(w % (1ull << 53)), field = w >> 52, s;
    u64 r = (field + field % 2 + 1020) * 0x8000000000000ull + kept;
    double f;
    memcpy(&f, &w, 8);
    f = sqrt(f);
    memcpy(&s, &f, 8);
    wrong += kept > 0 && r != s;
}

static void told(const char *what, u64 n) {
    printf("%s: %llu, to the digits %llu, past 2 %llu, wrong %llu\n", what, (unsigned long long)n, (unsigned long long)loops, (unsigned long long)past, (unsigned long long)wrong);
    loops = past = 0;
}

static u64 state = 9;
static u64 next(void) {
    u64 z = state += 0x9E3779B97F4A7C15ull;
    z = (z ^ (z >> 30)) * 0xBF58476D1CE4E5B9ull;
    z = (z ^ (z >> 27)) * 0x94D049BB133111EBull;
    return z ^ (z >> 31);
}

int main(int count, char **words) {
    u64 random = count > 1 ? strtoull(words[1], 0, 10) : 20000000, n = 0;
    for (uint32_t w = 0x3F800000; w < 0x40800000; w++) single(w);
    told("singles", 0x1000000);
    for (u64 i = 0; i < random; i++) twice(0x10000000000000ull + next() % 0x7FE0000000000000ull);
    told("random doubles", random);
    for (u64 i = 0; i < random; i++) twice(0x3FF0000000000000ull + next() % 0x20000000000000ull % (1ull << (next() % 53)));
    told("doubles next above powers of 4", random);
    for (u64 i = 0; i < random; i++) twice(0x400FFFFFFFFFFFFFull - next() % 0x20000000000000ull % (1ull << (next() % 53)));
    told("doubles next below powers of 4", random);
    for (u64 i = 0; i < 4000000; i++, n += 3) {
        double root = (double)(0x4000000 + next() % 0x4000000 / (1 + next() % 2 * (next() % 4096)));
        u64 w;
        root *= root;
        memcpy(&w, &root, 8);
        for (int d = -1; d < 2; d++) twice(w + d);
    }
    told("doubles next to squares", n);
    return wrong > 0;
}
