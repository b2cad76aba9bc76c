/* meshoptimizer FILE FACES TIMES: brings the mesh of a file down to so many faces, so many times. Prints the least processor time in
   milliseconds and the number of faces left. Any error is allowed and the border isn't locked, as it isn't for the others. */
#include "timing.h"
#include <meshoptimizer.h>

TIMED size_t timed_call(const mesh *m, size_t faces, uint32_t *out) {
    const float any_error = 1e30f;
    return meshopt_simplify(out, m->corners, 3 * m->faces, m->places, m->points, 12, 3 * faces, any_error, 0, nullptr) / 3;
}

int main(int words, char **word) {
    if (words != 4) fail("usage: meshoptimizer FILE FACES TIMES");
    mesh mesh = read_mesh(word[1]);
    size_t faces = strtoul(word[2], 0, 10), left = 0;
    uint32_t *out = (uint32_t *)room(12 * mesh.faces);
    double least = INFINITY;
    for (long times = strtol(word[3], 0, 10); times > 0; times--) {
        double start = processor_milliseconds();
        left = timed_call(&mesh, faces, out);
        least = fmin(least, processor_milliseconds() - start);
    }
    printf("%.4f %zu -\n", least, left);
    return 0;
}
