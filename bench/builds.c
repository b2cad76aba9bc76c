/* Two builds of the library in one program, called in turn, so that whatever else the machine does meets both alike. bench/builds gives the
   functions of one the name before_.., and those of the other after_..

       builds root                 nanoseconds of a root: of many that don't wait for each other, and of each after the last
       builds thin FILE RATIO N    milliseconds of a call on the mesh of a file: the least of N and the middle one, and last the middle one of
                                   the N differences between a call of the one and the next of the other
       builds before|after root    2^20 roots of the one build, for counting its instructions
       builds before|after FILE RATIO   one call, likewise

   Fails where the two give other bits. */
#include "../include/hjoltravan.h"
#include "timing.h"
#include <string.h>

extern __typeof__(hjoltravan_root) before_hjoltravan_root, after_hjoltravan_root;
extern __typeof__(hjoltravan_thin) before_hjoltravan_thin, after_hjoltravan_thin;
static __typeof__(hjoltravan_root) *const roots[] = {before_hjoltravan_root, after_hjoltravan_root};
static __typeof__(hjoltravan_thin) *const thins[] = {before_hjoltravan_thin, after_hjoltravan_thin};
static const char *const names[] = {"before", "after"};

enum { PATTERNS = 1 << 14, RUNS = 2000, MOST_CALLS = 1000 };

/* Normal patterns above zero, of every exponent. */
static uint32_t patterns[PATTERNS];

static void make_patterns(void) {
    uint64_t state = 88172645463325252ull;
    for (int i = 0; i < PATTERNS; i++) {
        state ^= state << 13, state ^= state >> 7, state ^= state << 17;
        patterns[i] = (uint32_t)(state % 0x7f000000u) + 0x800000u;
    }
}

/* The roots of all patterns, none of which waits for another. */
TIMED uint32_t timed_roots(int side) {
    uint32_t sum = 0;
    for (int i = 0; i < PATTERNS; i++) sum += roots[side](patterns[i]);
    return sum;
}

/* Each is asked for only when the one before is known: a root here never has the sign set, and the processor can't know it. */
TIMED uint32_t timed_chain(int side) {
    uint32_t sum = 0, last = 0;
    for (int i = 0; i < PATTERNS; i++) sum += last = roots[side](patterns[i] ^ (last & 0x80000000u));
    return sum;
}

static double took(uint32_t (*timed)(int), int side, uint32_t *sum) {
    double start = processor_milliseconds();
    *sum = timed(side);
    return (processor_milliseconds() - start) * 1e6 / PATTERNS;
}

static void time_roots(void) {
    double free[] = {INFINITY, INFINITY}, chain[] = {INFINITY, INFINITY};
    for (int run = 0; run < RUNS; run++) {
        uint32_t sums[2][2];
        for (int side = 0; side < 2; side++) {
            free[side] = fmin(free[side], took(timed_roots, side, &sums[side][0]));
            chain[side] = fmin(chain[side], took(timed_chain, side, &sums[side][1]));
        }
        if (sums[0][0] != sums[1][0] || sums[0][1] != sums[1][1]) fail("other roots");
    }
    for (int side = 0; side < 2; side++) printf("%s %.2f %.2f\n", names[side], free[side], chain[side]);
}

/* What is lent to a call besides the mesh, and what it answers. */
struct lent {
    float *points, *work_f32;
    uint32_t *faces, *work_u32;
    double *work_f64;
    uint32_t answer[5];
    uint64_t closed[3];
};

TIMED void timed_call(int side, const struct mesh *m, float ratio, struct lent *l) {
    size_t v = m->points, f = m->faces;
    thins[side](m->places, 3 * v, m->corners, 3 * f, NULL, 0, HJOLTRAVAN_MILLIMETRE, ratio, false, false, 0, l->points, HJOLTRAVAN_OUT_POINTS(v, f),
                l->faces, HJOLTRAVAN_OUT_FACES(v, f), l->work_u32, HJOLTRAVAN_WORK_U32(v, f), l->work_f32, HJOLTRAVAN_WORK_F32(v, f), l->work_f64,
                HJOLTRAVAN_WORK_F64(v, f), l->answer, l->closed);
}

static struct lent lend(const struct mesh *m) {
    size_t v = m->points, f = m->faces;
    struct lent l = {.points = room(HJOLTRAVAN_OUT_POINTS(v, f) * 4), .faces = room(HJOLTRAVAN_OUT_FACES(v, f) * 4)};
    l.work_u32 = room(HJOLTRAVAN_WORK_U32(v, f) * 4);
    l.work_f32 = room(HJOLTRAVAN_WORK_F32(v, f) * 4);
    l.work_f64 = room(HJOLTRAVAN_WORK_F64(v, f) * 8);
    return l;
}

static uint32_t sum_of(const struct lent *l) {
    uint32_t sum = sum_on(sum_on(SUM_BEGIN, l->answer, 5), l->closed, 6);
    return sum_on(sum_on(sum, l->points, 3 * (size_t)l->answer[2]), l->faces, 3 * (size_t)l->answer[3]);
}

static int by_size(const void *a, const void *b) { return (*(const double *)a > *(const double *)b) - (*(const double *)a < *(const double *)b); }

static void time_thins(const char *name, float ratio, int calls) {
    static double times[3][MOST_CALLS];
    struct mesh mesh = read_mesh(name);
    struct lent lent = lend(&mesh);
    uint32_t sums[2] = {0};
    if (calls < 1 || calls > MOST_CALLS) fail("from 1 to 1,000 calls");
    for (int call = 0; call < calls; call++)
        for (int turn = 0; turn < 2; turn++) {
            int side = (call + turn) % 2;
            double start = processor_milliseconds();
            timed_call(side, &mesh, ratio, &lent);
            times[side][call] = processor_milliseconds() - start;
            if (lent.answer[0] != 0) fail("the library refused the mesh");
            sums[side] = sum_of(&lent);
        }
    if (sums[0] != sums[1]) fail("other bits");
    for (int call = 0; call < calls; call++) times[2][call] = times[1][call] - times[0][call];
    for (int row = 0; row < 3; row++) qsort(times[row], calls, sizeof times[row][0], by_size);
    for (int side = 0; side < 2; side++) printf("%s %.3f %.3f\n", names[side], times[side][0], times[side][calls / 2]);
    printf("difference %.3f\n", times[2][calls / 2]);
}

int main(int words, char **word) {
    make_patterns();
    int side = words > 1 && !strcmp(word[1], "after");
    int one = words > 2 && !strcmp(word[1], names[side]);
    if (words == 2 && !strcmp(word[1], "root")) time_roots();
    else if (words == 5 && !strcmp(word[1], "thin")) time_thins(word[2], strtof(word[3], 0), atoi(word[4]));
    else if (one && words == 3 && !strcmp(word[2], "root")) for (int i = 0; i < (1 << 20) / PATTERNS; i++) timed_roots(side);
    else if (one && words == 4) {
        struct mesh mesh = read_mesh(word[2]);
        struct lent lent = lend(&mesh);
        timed_call(side, &mesh, strtof(word[3], 0), &lent);
    } else fail("usage: bench/builds says how");
    return 0;
}
