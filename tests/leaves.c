/* Runs root, narrowing and order through the C interface on a few million patterns and compares them with the
   processor's own root and cast, and with totalOrder worked out from the parts of the patterns. */
#include "../include/hjoltravan.h"
#include <math.h>
#include <stdio.h>
#include <string.h>

enum { COUNT = 2000000 };

static uint64_t state = 88172645463325252ull;
static uint64_t next_random(void) {
    state ^= state << 13;
    state ^= state >> 7;
    return state ^= state << 17;
}

static uint32_t own_root(uint32_t bits) {
    float x, r;
    memcpy(&x, &bits, 4);
    r = sqrtf(x);
    memcpy(&bits, &r, 4);
    return r != r ? 0x7fc00000u : bits;
}

static uint32_t own_narrow(uint64_t bits) {
    double x;
    uint32_t out;
    memcpy(&x, &bits, 8);
    float r = (float)x;
    memcpy(&out, &r, 4);
    return r != r ? 0x7fc00000u : out;
}

/* totalOrder: numbers by value, the sign of zero, and NaNs outside, by sign and then by the digits */
static bool own_order(uint64_t a, uint64_t b) {
    double x, y;
    memcpy(&x, &a, 8);
    memcpy(&y, &b, 8);
    bool low_a = a >> 63, low_b = b >> 63;
    if (x < y) return true;
    if (x > y) return false;
    if (x == y) return low_a || !low_b;
    if (x == x) return !low_b;
    if (y == y) return low_a;
    if (low_a != low_b) return low_a;
    return low_a ? (b & ~(1ull << 63)) <= (a & ~(1ull << 63)) : (a & ~(1ull << 63)) <= (b & ~(1ull << 63));
}

/* a pattern near an edge: one of the corners of the format, a few steps off */
static uint64_t near_edge(unsigned digits, unsigned width) {
    uint64_t r = next_random(), top = 1ull << (width - 1);
    uint64_t field = (r >> 8) % (1ull << (width - 1 - digits));
    return ((r & 1) * top + (field << digits) + (r >> 40) % 5 - 2) & (top + top - 1);
}

int main(void) {
    uint64_t wrong_roots = 0, wrong_narrowed = 0, wrong_ordered = 0;
    for (int i = 0; i < COUNT; i++) {
        uint32_t root = i & 1 ? (uint32_t)next_random() : (uint32_t)near_edge(23, 32);
        uint64_t a = i & 1 ? next_random() : near_edge(52, 64);
        uint64_t b = i % 3 ? next_random() : a + i % 5 - 2;
        wrong_roots += hjoltravan_root(root) != own_root(root);
        wrong_narrowed += hjoltravan_narrow(a) != own_narrow(a);
        /* the middle range of f64 that an f32 can hold, which random patterns seldom meet */
        uint64_t c = (a & 0x800fffffffffffffull) | (870 + (b >> 1) % 290) << 52;
        if (i & 2) c &= ~0xfffffffull;
        wrong_narrowed += hjoltravan_narrow(c) != own_narrow(c);
        wrong_ordered += (hjoltravan_order_key(a) <= hjoltravan_order_key(b)) != own_order(a, b);
    }
    printf("leaves: %d patterns, wrong roots %llu, wrong narrowed %llu, wrong ordered %llu\n", COUNT,
           (unsigned long long)wrong_roots, (unsigned long long)wrong_narrowed, (unsigned long long)wrong_ordered);
    return wrong_roots + wrong_narrowed + wrong_ordered != 0;
}
