/* Times the thinning of a wavy grid: thin [SIDE [RATIO]], 2 * SIDE * SIDE faces. */
#include "../include/hjoltravan.h"
#include <math.h>
#include <stdio.h>
#include <stdlib.h>
#include <time.h>

static void *room(size_t bytes) {
    void *cells = malloc(bytes);
    if (!cells) exit(1);
    return cells;
}

int main(int words, char **word) {
    size_t side = words > 1 ? strtoul(word[1], 0, 10) : 22;
    float ratio = words > 2 ? strtof(word[2], 0) : 0.5f;
    size_t v = (side + 1) * (side + 1), f = 2 * side * side, at = 0;
    float *points = room(3 * v * 4), *out_points = room(3 * v * 4);
    uint32_t *faces = room(3 * f * 4), *out_faces = room(3 * f * 4), answer[5];
    uint64_t closed[3];
    for (size_t y = 0; y <= side; y++)
        for (size_t x = 0; x <= side; x++) {
            float *p = points + 3 * (y * (side + 1) + x);
            p[0] = (float)x, p[1] = (float)y, p[2] = sinf(x * 0.3f) * cosf(y * 0.2f) * 2 + (float)((x * 7919 + y * 104729) % 101) * 1e-3f;
        }
    for (size_t y = 0; y < side; y++)
        for (size_t x = 0; x < side; x++) {
            uint32_t a = (uint32_t)(y * (side + 1) + x), b = a + 1, c = a + (uint32_t)side + 1, d = c + 1;
            uint32_t six[] = {a, b, d, a, d, c};
            for (int i = 0; i < 6; i++) faces[at++] = six[i];
        }
    uint32_t *u = room(HJOLTRAVAN_WORK_U32(v, f) * 4);
    float *p = room(HJOLTRAVAN_WORK_F32(v, f) * 4);
    double *q = room(HJOLTRAVAN_WORK_F64(v, f) * 8);
    struct timespec start, end;
    clock_gettime(CLOCK_MONOTONIC, &start);
    hjoltravan_thin(points, 3 * v, faces, 3 * f, NULL, 0, HJOLTRAVAN_MILLIMETRE, ratio, false, false, 0, out_points, 3 * v,
                    out_faces, 3 * f, u, HJOLTRAVAN_WORK_U32(v, f), p, HJOLTRAVAN_WORK_F32(v, f), q, HJOLTRAVAN_WORK_F64(v, f), answer,
                    closed);
    clock_gettime(CLOCK_MONOTONIC, &end);
    double took = (end.tv_sec - start.tv_sec) * 1e3 + (end.tv_nsec - start.tv_nsec) * 1e-6;
    printf("%zu faces, ratio %g: answer %u, %u faces left, %u folds, %llu pairs closed, %.1f ms\n", f, ratio, answer[0], answer[3], answer[4],
           (unsigned long long)(closed[0] + closed[1] + closed[2]), took);
    return 0;
}
