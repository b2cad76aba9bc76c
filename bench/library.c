/* library FILE RATIO TIMES: thins the mesh of a file so many times in the same lent memory. Prints the least processor time in
   milliseconds, the number of faces left, and a sum over the bits of the thinned mesh. */
#include "../include/hjoltravan.h"
#include "timing.h"

/* What is lent to a call besides the mesh, and what it answers. */
struct lent {
    float *points, *work_f32;
    uint32_t *faces, *work_u32;
    double *work_f64;
    uint32_t answer[5];
    uint64_t closed[3];
};

TIMED void timed_call(const struct mesh *m, float ratio, struct lent *l) {
    size_t v = m->points, f = m->faces;
    hjoltravan_thin(m->places, 3 * v, m->corners, 3 * f, NULL, 0, HJOLTRAVAN_MILLIMETRE, ratio, false, false, 0, l->points,
                    HJOLTRAVAN_OUT_POINTS(v, f), l->faces, HJOLTRAVAN_OUT_FACES(v, f), l->work_u32, HJOLTRAVAN_WORK_U32(v, f),
                    l->work_f32, HJOLTRAVAN_WORK_F32(v, f), l->work_f64, HJOLTRAVAN_WORK_F64(v, f), l->answer, l->closed);
}

int main(int words, char **word) {
    if (words != 4) fail("usage: library FILE RATIO TIMES");
    struct mesh mesh = read_mesh(word[1]);
    size_t v = mesh.points, f = mesh.faces;
    float ratio = strtof(word[2], 0);
    struct lent lent = {.points = room(HJOLTRAVAN_OUT_POINTS(v, f) * 4), .faces = room(HJOLTRAVAN_OUT_FACES(v, f) * 4)};
    lent.work_u32 = room(HJOLTRAVAN_WORK_U32(v, f) * 4);
    lent.work_f32 = room(HJOLTRAVAN_WORK_F32(v, f) * 4);
    lent.work_f64 = room(HJOLTRAVAN_WORK_F64(v, f) * 8);
    double least = INFINITY;
    for (long times = strtol(word[3], 0, 10); times > 0; times--) {
        double start = processor_milliseconds();
        timed_call(&mesh, ratio, &lent);
        least = fmin(least, processor_milliseconds() - start);
    }
    if (lent.answer[0] != 0) fail("the library refused the mesh");
    uint32_t sum = sum_on(SUM_BEGIN, lent.points, 3 * (size_t)lent.answer[2]);
    sum = sum_on(sum, lent.faces, 3 * (size_t)lent.answer[3]);
    printf("%.4f %u %08x\n", least, lent.answer[3], sum);
    return 0;
}
