/* A caller of the library: thins the square of document 01 and saves it as a scan file. Run it with
   tests/run-driver examples/write.c hjoltravan OUT; ./thin OUT reads the file. */
#include "../include/hjoltravan.h"
#include <stdio.h>

enum { V = 5, F = 4 };

int main(int count, char **names)
{
    const float points[3 * V] = {0, 0, 0, 2, 0, 0, 2, 2, 0, 0, 2, 0, 1, 1, 0};
    const uint32_t faces[3 * F] = {0, 1, 4, 1, 2, 4, 2, 3, 4, 3, 0, 4};

    static float out_points[HJOLTRAVAN_OUT_POINTS(V, F)];
    static uint32_t out_faces[HJOLTRAVAN_OUT_FACES(V, F)];
    static uint32_t work_u32[HJOLTRAVAN_WORK_U32(V, F)];
    static float work_f32[HJOLTRAVAN_WORK_F32(V, F)];
    static double work_f64[HJOLTRAVAN_WORK_F64(V, F)];
    uint32_t thinned[5];
    uint64_t closed[3];

    /* in millimetres, take half of the faces away; no margin, preserve nothing, no length limit */
    const uint32_t unit = HJOLTRAVAN_MILLIMETRE;
    hjoltravan_thin(points, 3 * V, faces, 3 * F, NULL, 0, unit, 0.5f, false, false, 0.0f, out_points, 3 * V, out_faces, 3 * F,
                    work_u32, HJOLTRAVAN_WORK_U32(V, F), work_f32, HJOLTRAVAN_WORK_F32(V, F),
                    work_f64, HJOLTRAVAN_WORK_F64(V, F), thinned, closed);
    if (thinned[0] != 0) {
        fprintf(stderr, "thinning was refused by %u, place %u\n", thinned[0], thinned[1]);
        return 1;
    }

    /* the thinned mesh is at the beginning of the outputs */
    static uint8_t file[HJOLTRAVAN_FILE_BYTES(V, F)];
    uint32_t written[3];
    hjoltravan_write_scan(unit, out_points, 3 * thinned[2], out_faces, 3 * thinned[3], file, sizeof file, written);
    if (written[0] != 0) {
        fprintf(stderr, "writing was refused by %u, place %u\n", written[0], written[1]);
        return 1;
    }
    FILE *out = count > 1 ? fopen(names[1], "wb") : stdout;
    if (!out || fwrite(file, 1, written[2], out) != written[2] || fclose(out)) {
        perror(count > 1 ? names[1] : "standard output");
        return 1;
    }
    return 0;
}
