/* An evening's queue: four scans thinned in one call over one work memory, the third of them bad. Build it with the archive of the
   crate hjoltravan. */
#include "../include/hjoltravan.h"
#include <stdio.h>
#include <stdlib.h>

enum { ORDERS = 4, SIDE = 9, V = SIDE * SIDE, F = 2 * (SIDE - 1) * (SIDE - 1), SQUARE_V = 5, SQUARE_F = 4 };

/* All scans stand in shared buffers, one after another; so do the results. */
static float points[3 * (V + SQUARE_V)], out_points[3 * (2 * V + 2 * SQUARE_V)];
static uint32_t faces[3 * (F + SQUARE_F)], out_faces[3 * (2 * F + 2 * SQUARE_F)];

/* A patch with a ridge, in millimetres: SIDE by SIDE points. */
static void lay_patch(float *p, uint32_t *f) {
    for (int y = 0; y < SIDE; y++)
        for (int x = 0; x < SIDE; x++, p += 3) p[0] = x, p[1] = y, p[2] = x > y ? 0.25f * (x - y) : 0;
    for (uint32_t y = 0; y + 1 < SIDE; y++)
        for (uint32_t x = 0; x + 1 < SIDE; x++, f += 6) {
            const uint32_t a = y * SIDE + x, b = a + 1, c = a + SIDE, d = c + 1;
            f[0] = a, f[1] = b, f[2] = d, f[3] = a, f[4] = d, f[5] = c;
        }
}

/* The square of document 01: four corners and the middle. */
static void lay_square(float *p, uint32_t *f) {
    static const float at[] = {0, 0, 0, 2, 0, 0, 2, 2, 0, 0, 2, 0, 1, 1, 0};
    static const uint32_t face[] = {0, 1, 4, 1, 2, 4, 2, 3, 4, 3, 0, 4};
    for (int i = 0; i < 3 * SQUARE_V; i++) p[i] = at[i];
    for (int i = 0; i < 3 * SQUARE_F; i++) f[i] = face[i];
}

/* What one order got: its answer, in a line. */
static void print_answer(int order, const uint32_t a[5]) {
    if (a[0] != 0)
        printf("order %d: answer %u place %u\n", order, a[0], a[1]);
    else
        printf("order %d: %u points and %u faces are left, folds made: %u\n", order, a[2], a[3], a[4]);
}

int main(void) {
    lay_patch(points, faces);
    lay_square(points + 3 * V, faces + 3 * F);
    const uint32_t margins[] = {0}; /* the square's first corner must not move */

    const hjoltravan_part patch_points = {0, 3 * V}, patch_faces = {0, 3 * F}, no_margin = {0, 0};
    const hjoltravan_part square_points = {3 * V, 3 * SQUARE_V}, square_faces = {3 * F, 3 * SQUARE_F};
    const hjoltravan_order orders[ORDERS] = {
        /* the patch by half, its border held */
        {patch_points, patch_faces, no_margin, HJOLTRAVAN_MILLIMETRE, 0.5f, true, false, 0, {0, 3 * V}, {0, 3 * F}},
        /* the same scan once more, by nine tenths, no pair longer than 3 */
        {patch_points, patch_faces, no_margin, HJOLTRAVAN_MILLIMETRE, 0.9f, false, true, 3, {3 * V, 3 * V}, {3 * F, 3 * F}},
        /* a bad one: these faces name points of the patch, which the square hasn't got */
        {square_points, {0, 3 * SQUARE_F}, no_margin, HJOLTRAVAN_MILLIMETRE, 0.5f, false, false, 0, {6 * V, 3 * SQUARE_V}, {6 * F, 3 * SQUARE_F}},
        /* the square by half, with a margin */
        {square_points, square_faces, {0, 1}, HJOLTRAVAN_MILLIMETRE, 0.5f, false, false, 0,
         {6 * V + 3 * SQUARE_V, 3 * SQUARE_V}, {6 * F + 3 * SQUARE_F, 3 * SQUARE_F}},
    };

    /* one work memory, for the largest scan */
    uint32_t *work_u32 = malloc(HJOLTRAVAN_WORK_U32(V, F) * sizeof *work_u32);
    float *work_f32 = malloc(HJOLTRAVAN_WORK_F32(V, F) * sizeof *work_f32);
    double *work_f64 = malloc(HJOLTRAVAN_WORK_F64(V, F) * sizeof *work_f64);
    if (!work_u32 || !work_f32 || !work_f64) return 1;

    uint32_t answers[HJOLTRAVAN_ANSWERS(ORDERS)];
    uint64_t closed[HJOLTRAVAN_CLOSED(ORDERS)];
    const uint32_t number = hjoltravan_thin_orders(
        orders, ORDERS, points, sizeof points / sizeof *points, faces, sizeof faces / sizeof *faces, margins, 1,
        out_points, sizeof out_points / sizeof *out_points, out_faces, sizeof out_faces / sizeof *out_faces,
        work_u32, HJOLTRAVAN_WORK_U32(V, F), work_f32, HJOLTRAVAN_WORK_F32(V, F), work_f64, HJOLTRAVAN_WORK_F64(V, F),
        answers, HJOLTRAVAN_ANSWERS(ORDERS), closed, HJOLTRAVAN_CLOSED(ORDERS));
    free(work_u32);
    free(work_f32);
    free(work_f64);

    if (number != 0) {
        printf("the whole call is refused: answer %u\n", number);
        return 1;
    }
    for (int k = 0; k < ORDERS; k++) print_answer(k, answers + 5 * k);

    /* each result stands at the beginning of its order's own parts: the faces of the last one */
    const uint32_t *square = out_faces + orders[3].out_faces.from;
    for (uint32_t i = 0; i < answers[5 * 3 + 3]; i++) printf("%u %u %u\n", square[3 * i], square[3 * i + 1], square[3 * i + 2]);
    return 0;
}
