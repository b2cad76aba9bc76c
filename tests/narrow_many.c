/* The library's narrowing of f64 bits to f32 bits against the processor's own.

       narrow_many [COUNT [SEED]]     (a hundred million unless given) */

#include "../include/hjoltravan.h"
#include <inttypes.h>
#include <stdio.h>
#include <stdlib.h>
#include <string.h>

static uint64_t state;

/* splitmix64 */
static uint64_t next(void)
{
    uint64_t z = state += 0x9e3779b97f4a7c15u;
    z = (z ^ z >> 30) * 0xbf58476d1ce4e5b9u;
    z = (z ^ z >> 27) * 0x94d049bb133111ebu;
    return z ^ z >> 31;
}

/* A quarter any bits; the rest with an exponent that f32 has or just misses,
   and half of these at a tie or a step beside it. */
static uint64_t pattern(void)
{
    uint64_t bits = next(), kind = next();
    if (kind % 4 == 0)
        return bits;
    uint64_t exponent = 1023 - 152 + (kind >> 8) % (152 + 130);
    bits = (bits & 0x800fffffffffffffu) | exponent << 52;
    if (kind % 4 < 3)
        return bits;
    /* The bits that fall away: 29, and more where the result is subnormal. */
    int fall = exponent < 1023 - 126 ? 29 + (int)(1023 - 126 - exponent) : 29;
    if (fall > 52)
        fall = 52;
    uint64_t half = 1ull << (fall - 1), kept = bits & ~(2 * half - 1);
    return kept + half + (kind >> 40) % 3 - 1;
}

static uint32_t expected(uint64_t bits)
{
    double wide;
    memcpy(&wide, &bits, sizeof wide);
    if (wide != wide)
        return 0x7fc00000u;
    float narrow = (float)wide;
    uint32_t result;
    memcpy(&result, &narrow, sizeof result);
    return result;
}

int main(int count, char **argument)
{
    uint64_t most = count > 1 ? strtoull(argument[1], NULL, 10) : 100000000;
    state = count > 2 ? strtoull(argument[2], NULL, 10) : 1;
    uint64_t wrong = 0;
    for (uint64_t i = 0; i < most; i++) {
        uint64_t bits = pattern();
        uint32_t got = hjoltravan_narrow(bits);
        if (got != expected(bits) && wrong++ < 10)
            printf("narrowing %016" PRIx64 ": %08x, expected %08x\n", bits, got, expected(bits));
    }
    printf("narrow: %" PRIu64 " patterns, %" PRIu64 " differ\n", most, wrong);
    return wrong != 0;
}
