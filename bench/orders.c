/* Thins 64 wavy grids of 1,800 faces by half: orders together in one call, orders alone by 64 calls. Prints a sum over the output's bits. */
#include "../include/hjoltravan.h"
#include <math.h>
#include <stdio.h>
#include <stdlib.h>
#include <string.h>

enum { N = HJOLTRAVAN_MOST_ORDERS, SIDE = 31, V = SIDE * SIDE, F = 2 * (SIDE - 1) * (SIDE - 1) };

static float points[3 * V * N], out_points[3 * V * N];
static uint32_t faces[3 * F * N], out_faces[3 * F * N], answers[HJOLTRAVAN_ANSWERS(N)];
static uint64_t closed[HJOLTRAVAN_CLOSED(N)];
static hjoltravan_order orders[N];

static void lay(int n) {
    float *p = points + 3 * V * n;
    uint32_t *f = faces + 3 * F * n;
    for (int y = 0; y < SIDE; y++)
        for (int x = 0; x < SIDE; x++, p += 3) p[0] = x * 0.1f, p[1] = y * 0.1f, p[2] = 0.3f * sinf(0.21f * x + n) * cosf(0.17f * y);
    for (uint32_t y = 0; y + 1 < SIDE; y++)
        for (uint32_t x = 0; x + 1 < SIDE; x++, f += 6) {
            const uint32_t a = y * SIDE + x, b = a + 1, c = a + SIDE, d = c + 1;
            f[0] = a, f[1] = b, f[2] = d, f[3] = a, f[4] = d, f[5] = c;
        }
    const hjoltravan_part own_points = {3 * V * n, 3 * V}, own_faces = {3 * F * n, 3 * F}, no_margin = {0, 0};
    orders[n] = (hjoltravan_order){own_points, own_faces, no_margin, HJOLTRAVAN_MILLIMETRE, 0.5f, true, false, 0, own_points, own_faces};
}

static uint64_t sum(uint64_t so_far, const void *cells, size_t bytes) {
    for (size_t i = 0; i < bytes; i++) so_far = (so_far ^ ((const uint8_t *)cells)[i]) * 1099511628211u;
    return so_far;
}

int main(int words, char **word) {
    const size_t u_len = HJOLTRAVAN_WORK_U32(V, F), p_len = HJOLTRAVAN_WORK_F32(V, F), q_len = HJOLTRAVAN_WORK_F64(V, F);
    uint32_t *u = malloc(u_len * sizeof *u);
    float *p = malloc(p_len * sizeof *p);
    double *q = malloc(q_len * sizeof *q);
    if (words != 2 || !u || !p || !q) return 1;
    for (int n = 0; n < N; n++) lay(n);
    if (!strcmp(word[1], "together")) {
        if (hjoltravan_thin_orders(orders, N, points, 3 * V * N, faces, 3 * F * N, NULL, 0, out_points, 3 * V * N, out_faces, 3 * F * N, u,
                                   u_len, p, p_len, q, q_len, answers, HJOLTRAVAN_ANSWERS(N), closed, HJOLTRAVAN_CLOSED(N)))
            return 1;
    } else
        for (int n = 0; n < N; n++)
            hjoltravan_thin(points + 3 * V * n, 3 * V, faces + 3 * F * n, 3 * F, NULL, 0, HJOLTRAVAN_MILLIMETRE, 0.5f, true, false, 0,
                            out_points + 3 * V * n, 3 * V, out_faces + 3 * F * n, 3 * F, u, u_len, p, p_len, q, q_len, answers + 5 * n,
                            closed + 3 * n);
    uint64_t all = sum(14695981039346656037u, answers, sizeof answers);
    all = sum(sum(all, closed, sizeof closed), out_points, sizeof out_points);
    printf("%016llx\n", (unsigned long long)sum(all, out_faces, sizeof out_faces));
    return 0;
}
