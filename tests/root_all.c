/* The library's square root against the processor's own, over all 2^32 patterns
   or over a part of them.

       root_all [FIRST LAST [STRIDE]]     (hexadecimal, LAST included) */

#include "../include/hjoltravan.h"
#include <inttypes.h>
#include <stdio.h>
#include <stdlib.h>
#include <string.h>

/* One instruction of the processor, which IEEE 754 binds to the nearest f32. */
static float processor_root(float x)
{
#if defined(__x86_64__)
    __asm__("sqrtss %0, %0" : "+x"(x));
#elif defined(__aarch64__)
    __asm__("fsqrt %s0, %s0" : "+w"(x));
#else
#error "this processor's square root isn't known here"
#endif
    return x;
}

static uint32_t expected(uint32_t bits)
{
    if (bits == 0x80000000u || bits == 0x7f800000u)
        return bits;
    if (bits > 0x7f800000u)
        return 0x7fc00000u;
    float x;
    memcpy(&x, &bits, sizeof x);
    x = processor_root(x);
    memcpy(&bits, &x, sizeof bits);
    return bits;
}

int main(int count, char **argument)
{
    uint64_t first = count > 2 ? strtoull(argument[1], NULL, 16) : 0;
    uint64_t last = count > 2 ? strtoull(argument[2], NULL, 16) : 0xffffffffu;
    uint64_t stride = count > 3 ? strtoull(argument[3], NULL, 16) : 1;
    uint64_t tried = 0, wrong = 0;
    for (uint64_t i = first; i <= last; i += stride, tried++) {
        uint32_t bits = (uint32_t)i, got = hjoltravan_root(bits);
        if (got != expected(bits) && wrong++ < 10)
            printf("root of %08x: %08x, expected %08x\n", bits, got, expected(bits));
    }
    printf("root: %" PRIu64 " patterns, %" PRIu64 " differ\n", tried, wrong);
    return wrong != 0;
}
