/* Thins a square of four triangles by half, one corner of it held, and prints what is left and how many pairs could not be joined.
   Build it with the archive of the crate hjoltravan. */
#include "../include/hjoltravan.h"
#include <stdio.h>
#include <stdlib.h>

/* Prints the thinned mesh and the number of folds. */
static void print_mesh(const float *points, const uint32_t *faces, const uint32_t answer[5]) {
    printf("answer 0\nfolds %u\nvertices %u\n", answer[4], answer[2]);
    for (uint32_t i = 0; i < answer[2]; i++)
        printf("%g %g %g\n", points[3 * i], points[3 * i + 1], points[3 * i + 2]);
    printf("faces %u\n", answer[3]);
    for (uint32_t i = 0; i < answer[3]; i++)
        printf("%u %u %u\n", faces[3 * i], faces[3 * i + 1], faces[3 * i + 2]);
}

int main(void) {
    const float points[] = {0, 0, 0, 2, 0, 0, 2, 2, 0, 0, 2, 0, 1, 1, 0};
    const uint32_t faces[] = {0, 1, 4, 1, 2, 4, 2, 3, 4, 3, 0, 4};
    const uint32_t margin[] = {0}; /* this point must not move */
    enum { V = 5, F = 4, HELD = 1 };

    /* All memory is lent: room for the result, and for the work. */
    float out_points[HJOLTRAVAN_OUT_POINTS(V, F)];
    uint32_t out_faces[HJOLTRAVAN_OUT_FACES(V, F)];
    uint32_t *work_u32 = malloc(HJOLTRAVAN_WORK_U32(V, F) * sizeof *work_u32);
    float *work_f32 = malloc(HJOLTRAVAN_WORK_F32(V, F) * sizeof *work_f32);
    double *work_f64 = malloc(HJOLTRAVAN_WORK_F64(V, F) * sizeof *work_f64);
    if (!work_u32 || !work_f32 || !work_f64) return 1;

    uint32_t answer[5];
    uint64_t closed[3]; /* pairs that were not allowed, by the reason */
    hjoltravan_thin(points, 3 * V, faces, 3 * F, margin, HELD, HJOLTRAVAN_MILLIMETRE, 0.5f, false, false, 0.0f,
                    out_points, HJOLTRAVAN_OUT_POINTS(V, F), out_faces, HJOLTRAVAN_OUT_FACES(V, F),
                    work_u32, HJOLTRAVAN_WORK_U32(V, F), work_f32, HJOLTRAVAN_WORK_F32(V, F),
                    work_f64, HJOLTRAVAN_WORK_F64(V, F), answer, closed);
    free(work_u32);
    free(work_f32);
    free(work_f64);

    if (answer[0] != 0)
        printf("answer %u place %u\n", answer[0], answer[1]);
    else
        print_mesh(out_points, out_faces, answer);
    printf("pairs not joined: %llu not linked, %llu would squash a face, %llu would turn one over\n", (unsigned long long)closed[0],
           (unsigned long long)closed[1], (unsigned long long)closed[2]);
    return answer[0] != 0;
}
