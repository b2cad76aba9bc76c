/* copy_and_scan FILE TIMES: what the library takes where there is nothing to thin, beside plain C on the same mesh. A line each, a name
   and the least processor time in milliseconds: ratio 0, copying the mesh by memcpy, the same with clearing the work memory (which is
   all zero after a call that is done), a refusal because of the last face, and looking at every coordinate and face once. */
#include "../include/hjoltravan.h"
#include "timing.h"
#include <string.h>

static struct mesh mesh;
static float *out_points, *work_f32;
static uint32_t *out_faces, *work_u32, answer[5];
static double *work_f64;

/* The library's call. */
static void call(float ratio) {
    size_t v = mesh.points, f = mesh.faces;
    uint64_t closed[3];
    hjoltravan_thin(mesh.places, 3 * v, mesh.corners, 3 * f, NULL, 0, HJOLTRAVAN_MILLIMETRE, ratio, false, false, 0, out_points, 3 * v,
                    out_faces, 3 * f, work_u32, HJOLTRAVAN_WORK_U32(v, f), work_f32, HJOLTRAVAN_WORK_F32(v, f), work_f64,
                    HJOLTRAVAN_WORK_F64(v, f), answer, closed);
}

/* Ratio 0: the mesh is copied. */
static void ratio_zero(void) {
    call(0);
    if (answer[0] != 0 || answer[3] != mesh.faces) fail("ratio 0 didn't copy");
}

/* The same copy by the C library. */
static void copy(void) {
    memcpy(out_points, mesh.places, 12 * mesh.points);
    memcpy(out_faces, mesh.corners, 12 * mesh.faces);
    __asm__ volatile("" ::: "memory"); /* so that it isn't left out */
}

/* The same copy, and the work memory all zero. */
static void copy_and_clear(void) {
    size_t v = mesh.points, f = mesh.faces;
    copy();
    memset(work_u32, 0, HJOLTRAVAN_WORK_U32(v, f) * 4);
    memset(work_f32, 0, HJOLTRAVAN_WORK_F32(v, f) * 4);
    memset(work_f64, 0, HJOLTRAVAN_WORK_F64(v, f) * 8);
    __asm__ volatile("" ::: "memory");
}

/* A mesh whose last face names a point that there isn't. */
static void refusal(void) {
    call(0.5f);
    if (answer[0] != 8 || answer[1] != mesh.faces - 1) fail("the last face wasn't refused");
}

/* The same question in plain C: the first bad coordinate, or else the first bad face. */
static size_t first_bad(void) {
    for (size_t i = 0; i < 3 * mesh.points; i++)
        if (!(fabsf(mesh.places[i]) <= 1024)) return i;
    for (size_t i = 0; i < mesh.faces; i++) {
        uint32_t a = mesh.corners[3 * i], b = mesh.corners[3 * i + 1], c = mesh.corners[3 * i + 2];
        if (a >= mesh.points || b >= mesh.points || c >= mesh.points || a == b || b == c || c == a) return i;
    }
    return SIZE_MAX;
}

/* Asks it. */
static void scan(void) {
    if (first_bad() != mesh.faces - 1) fail("the last face wasn't found");
}

/* Prints the least time of several. */
static void least_time(const char *name, void (*run)(void), long times) {
    double least = INFINITY;
    for (; times > 0; times--) {
        double start = processor_milliseconds();
        run();
        least = fmin(least, processor_milliseconds() - start);
    }
    printf("%s %.4f\n", name, least);
}

int main(int words, char **word) {
    if (words != 3) fail("usage: copy_and_scan FILE TIMES");
    mesh = read_mesh(word[1]);
    size_t v = mesh.points, f = mesh.faces;
    long times = strtol(word[2], 0, 10);
    out_points = room(12 * v), out_faces = room(12 * f);
    work_u32 = room(HJOLTRAVAN_WORK_U32(v, f) * 4);
    work_f32 = room(HJOLTRAVAN_WORK_F32(v, f) * 4);
    work_f64 = room(HJOLTRAVAN_WORK_F64(v, f) * 8);
    least_time("ratio-zero", ratio_zero, times);
    least_time("copy", copy, times);
    least_time("copy-and-clear", copy_and_clear, times);
    mesh.corners[3 * f - 1] = (uint32_t)v;
    least_time("refusal", refusal, times);
    least_time("scan", scan, times);
    return 0;
}
