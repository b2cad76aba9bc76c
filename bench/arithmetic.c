/* Times the proved root and narrowing beside the processor's own, in the same loop over the same numbers: called as the
   library's are, in line one at a time, and in line as the compiler likes, which may do several at once.
   Prints nanoseconds a number and the ratio. */
#include "../include/hjoltravan.h"
#include <math.h>
#include <stdio.h>
#include <string.h>
#include <time.h>

enum { COUNT = 1 << 14, RUNS = 2000 };

static uint32_t roots[COUNT];
static uint64_t doubles[COUNT];

static uint64_t state = 88172645463325252ull;
static uint64_t next_random(void) {
    state ^= state << 13;
    state ^= state >> 7;
    return state ^= state << 17;
}

static inline uint32_t own_root(uint32_t bits) {
    float x, r;
    memcpy(&x, &bits, 4);
    r = sqrtf(x);
    memcpy(&bits, &r, 4);
    return bits;
}

static inline uint32_t own_narrow(uint64_t bits) {
    double x;
    uint32_t out;
    memcpy(&x, &bits, 8);
    float r = (float)x;
    memcpy(&out, &r, 4);
    return out;
}

static double seconds(void) {
    struct timespec t;
    clock_gettime(CLOCK_MONOTONIC, &t);
    return t.tv_sec + t.tv_nsec * 1e-9;
}

/* The least time of all runs, in nanoseconds a call. The sum is used, so that no call is left out. */
#define TIME(call, result)                                       \
    do {                                                         \
        result = 1e9;                                            \
        for (int run = 0; run < RUNS; run++) {                   \
            uint64_t sum = 0;                                    \
            double start = seconds();                            \
            for (int i = 0; i < COUNT; i++) sum += call;         \
            double took = (seconds() - start) / COUNT * 1e9;     \
            if (sum != 0 && took < result) result = took;        \
        }                                                        \
    } while (0)

__attribute__((noinline)) static uint32_t called_root(uint32_t bits) { return own_root(bits); }
__attribute__((noinline)) static uint32_t called_narrow(uint64_t bits) { return own_narrow(bits); }

/* keeps the compiler from doing several turns at once */
static inline uint32_t alone(uint32_t bits) {
    __asm__("" : "+r"(bits));
    return bits;
}

static void say(const char *what, double ours, double called, double single, double free) {
    printf("%s %6.2f ns; the processor's: called %.2f ns, ratio %.1f; in line %.2f ns, ratio %.1f; several at once %.2f ns, ratio %.1f\n", what, ours,
           called, ours / called, single, ours / single, free, ours / free);
}

int main(void) {
    uint64_t wrong = 0;
    for (int i = 0; i < COUNT; i++) {
        roots[i] = (uint32_t)(next_random() % 0x7f000000u) + 0x800000u;
        /* an f64 in the normal range of f32, of either sign */
        uint64_t r = next_random();
        doubles[i] = (r & 0x800fffffffffffffull) | (900 + (r >> 52) % 240) << 52;
        wrong += hjoltravan_root(roots[i]) != own_root(roots[i]);
        wrong += hjoltravan_narrow(doubles[i]) != own_narrow(doubles[i]);
    }
    double ours, called, single, free;
    TIME(hjoltravan_root(roots[i]), ours);
    TIME(called_root(roots[i]), called);
    TIME(alone(own_root(roots[i])), single);
    TIME(own_root(roots[i]), free);
    say("root  ", ours, called, single, free);
    TIME(hjoltravan_narrow(doubles[i]), ours);
    TIME(called_narrow(doubles[i]), called);
    TIME(alone(own_narrow(doubles[i])), single);
    TIME(own_narrow(doubles[i]), free);
    say("narrow", ours, called, single, free);
    printf("different bits: %llu\n", (unsigned long long)wrong);
    return wrong != 0;
}
