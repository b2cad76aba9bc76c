/* The small set of document 01 that is run, margins on its square, the bounds of the units and the reasons of closed pairs
   (document 02, wishes 2 to 4), through the C interface: each call's answer, and the output where it matters. */
#include "../include/hjoltravan.h"
#include <math.h>
#include <stdio.h>
#include <string.h>

enum { MOST_POINTS = 16, MOST_FACES = 16 };

static float out_points[3 * MOST_POINTS];
static uint32_t out_faces[3 * MOST_FACES];
static uint32_t u[16 * MOST_POINTS + 32 * MOST_FACES];
static float p[4 * MOST_POINTS + 12 * MOST_FACES];
static double q[16 * MOST_POINTS + 6 * MOST_FACES];
static uint64_t closed[3];
static int failed;

enum { UNTOUCHED = 77, FOLD_ROOM = 8 };

/* Whether the pairs that the last call closed are so many, by the reason. */
static bool closed_are(uint64_t not_linked, uint64_t squashed, uint64_t turned_over) {
    return closed[0] == not_linked && closed[1] == squashed && closed[2] == turned_over;
}

/* Thins v points and f faces both ways, and says whether the answer is the expected one and the two agree in all that they write. */
static void expect_in(const char *what, const float *points, size_t v, const uint32_t *faces, size_t f, const uint32_t *margin, size_t held,
                      uint32_t unit, float ratio, bool preserve, bool limited, float limit, uint32_t number, uint32_t place,
                      uint32_t most_faces, uint32_t folds) {
    static float plain_points[3 * MOST_POINTS];
    static uint32_t plain_faces[3 * MOST_FACES], answer[5], plain_answer[5];
    static uint64_t plain_closed[3];
    for (size_t i = 0; i < 3; i++) closed[i] = plain_closed[i] = UNTOUCHED;
    memcpy(plain_points, out_points, sizeof out_points);
    memcpy(plain_faces, out_faces, sizeof out_faces);
    hjoltravan_thin(points, 3 * v, faces, 3 * f, margin, held, unit, ratio, preserve, limited, limit, out_points, 3 * v, out_faces, 3 * f, u,
                    HJOLTRAVAN_WORK_U32(v, f), p, HJOLTRAVAN_WORK_F32(v, f), q, HJOLTRAVAN_WORK_F64(v, f), answer, closed);
    bool right = answer[0] == number && answer[1] == place && answer[3] <= most_faces && answer[4] == folds;
    /* without a walk nothing is closed */
    bool walked = (number == 0 && ratio != 0) || number == 10 || number == 11;
    if (!right || !(walked || closed_are(0, 0, 0))) {
        printf("small set: %s: answer %u place %u points %u faces %u folds %u\n", what, answer[0], answer[1], answer[2], answer[3], answer[4]);
        failed++;
    }
    hjoltravan_thin_plain(points, 3 * v, faces, 3 * f, margin, held, unit, ratio, preserve, limited, limit, plain_points, 3 * v,
                          plain_faces, 3 * f, u, HJOLTRAVAN_WORK_U32(v, f), p, HJOLTRAVAN_WORK_F32(v, f), q, HJOLTRAVAN_WORK_F64(v, f),
                          plain_answer, plain_closed);
    if (memcmp(answer, plain_answer, sizeof answer) || memcmp(closed, plain_closed, sizeof closed) || memcmp(out_points, plain_points, sizeof out_points) ||
        memcmp(out_faces, plain_faces, sizeof out_faces)) {
        printf("small set: %s: the plain walk differs\n", what);
        failed++;
    }
}

/* The same in millimetres. */
static void expect_held(const char *what, const float *points, size_t v, const uint32_t *faces, size_t f, const uint32_t *margin, size_t held,
                        float ratio, bool preserve, bool limited, float limit, uint32_t number, uint32_t place, uint32_t most_faces,
                        uint32_t folds) {
    expect_in(what, points, v, faces, f, margin, held, HJOLTRAVAN_MILLIMETRE, ratio, preserve, limited, limit, number, place, most_faces,
              folds);
}

/* The same without a margin. */
static void expect(const char *what, const float *points, size_t v, const uint32_t *faces, size_t f, float ratio, bool preserve,
                   bool limited, float limit, uint32_t number, uint32_t place, uint32_t most_faces, uint32_t folds) {
    expect_held(what, points, v, faces, f, NULL, 0, ratio, preserve, limited, limit, number, place, most_faces, folds);
}

/* Says whether the call before this closed so many pairs, by the reason. */
static void expect_closed(const char *what, uint64_t not_linked, uint64_t squashed, uint64_t turned_over) {
    if (closed_are(not_linked, squashed, turned_over)) return;
    printf("small set: %s: closed %llu %llu %llu\n", what, (unsigned long long)closed[0], (unsigned long long)closed[1],
           (unsigned long long)closed[2]);
    failed++;
}

/* Thins v points and f faces with room for that many numbers of folds, and says whether the list is the expected one. */
static void expect_folds(const char *what, const float *points, size_t v, const uint32_t *faces, size_t f, float ratio, bool preserve,
                         size_t room, const uint32_t expected[FOLD_ROOM]) {
    static uint32_t folds[FOLD_ROOM], answer[5];
    for (size_t i = 0; i < FOLD_ROOM; i++) folds[i] = UNTOUCHED;
    hjoltravan_thin_folds(points, 3 * v, faces, 3 * f, NULL, 0, HJOLTRAVAN_MILLIMETRE, ratio, preserve, false, 0, out_points, 3 * v,
                          out_faces, 3 * f, u, HJOLTRAVAN_WORK_U32(v, f), p, HJOLTRAVAN_WORK_F32(v, f), q, HJOLTRAVAN_WORK_F64(v, f),
                          folds, room, answer, closed);
    if (memcmp(folds, expected, sizeof folds)) {
        printf("small set: %s: answer %u folds %u, listed %u %u %u ..\n", what, answer[0], answer[4], folds[0], folds[1], folds[2]);
        failed++;
    }
}

static const float square[] = {0, 0, 0, 2, 0, 0, 2, 2, 0, 0, 2, 0, 1, 1, 0};
static const uint32_t fan[] = {0, 1, 4, 1, 2, 4, 2, 3, 4, 3, 0, 4};

/* A square as wide as that, but for the x of its corner 1, which is coordinate 3. It is thinned, or refused there. */
static void expect_wide(const char *what, uint32_t unit, float wide, float x, bool admitted) {
    const float half = wide / 2, points[] = {0, 0, 0, x, 0, 0, wide, wide, 0, 0, wide, 0, half, half, 0};
    if (admitted)
        expect_in(what, points, 5, fan, 4, NULL, 0, unit, 0.5f, false, false, 0, 0, 0, 2, 1);
    else
        expect_in(what, points, 5, fan, 4, NULL, 0, unit, 0.5f, false, false, 0, 7, 3, 0, 0);
}

/* The bound of each unit, the next f32 above it, and the same below zero. */
static void expect_bounds(void) {
    enum { MM = HJOLTRAVAN_MILLIMETRE, UM = HJOLTRAVAN_MICROMETRE };
    const float step = 0x1.000002p0f; /* a bound times this is the next f32 above it */
    for (float side = 1; side >= -1; side -= 2) {
        const float wide = 1024 * side, wider = 1048576 * side;
        expect_wide("1024 mm", MM, wide, wide, true);
        expect_wide("the f32 above 1024 mm", MM, wide, step * wide, false);
        expect_wide("1234 mm", MM, wide, 1234 * side, false);
        expect_wide("1048576 mm", MM, wide, wider, false);
        expect_wide("1024 um", UM, wide, wide, true);
        expect_wide("the f32 above 1024 um", UM, wide, step * wide, true);
        expect_wide("1048576 um", UM, wider, wider, true);
        expect_wide("the f32 above 1048576 um", UM, wider, step * wider, false);
    }
}

/* Numbers that are no unit, and what is looked at before and after. */
static void expect_units(void) {
    static const uint32_t none[] = {0, 3, 65537, 65538, UINT32_MAX};
    static const float over[] = {0, 0, 0, 2, 0, 0, 2, 2, 0, 0, 2, 0, 1, 1, INFINITY};
    static const uint32_t bad_faces[] = {0, 0, 9};
    for (size_t i = 0; i < sizeof none / sizeof *none; i++)
        expect_in("no unit", square, 5, fan, 4, NULL, 0, none[i], 0.5f, false, false, 0, 24, 0, 0, 0);
    expect_in("no unit, ratio 2", square, 5, fan, 4, NULL, 0, 3, 2.0f, false, false, 0, 5, 0, 0, 0);
    expect_in("no unit, limit NaN", square, 5, fan, 4, NULL, 0, 3, 0.5f, false, true, NAN, 6, 0, 0, 0);
    expect_in("no unit, no limit NaN", square, 5, fan, 4, NULL, 0, 3, 0.5f, false, false, NAN, 24, 0, 0, 0);
    expect_in("no unit, a coordinate over", over, 5, fan, 4, NULL, 0, 3, 0.5f, false, false, 0, 24, 0, 0, 0);
    expect_in("no unit, ratio zero", square, 5, fan, 4, NULL, 0, 3, 0.0f, false, false, 0, 24, 0, 0, 0);
    expect_in("no unit, a bad face", square, 5, bad_faces, 1, NULL, 0, 3, 0.5f, false, false, 0, 24, 0, 0, 0);
    expect_in("a coordinate over, ratio zero", over, 5, fan, 4, NULL, 0, HJOLTRAVAN_MILLIMETRE, 0.0f, false, false, 0, 7, 14, 0, 0);
}

/* A ridge between two slopes, whose planes meet beyond 1,024: the one fold puts its point there, or in the ridge's middle. */
static void expect_ridge(const char *what, uint32_t unit, float x, float y) {
    static const float ridge[] = {1024, 0, 1, 1024, 0, -1, 1020, 0, 0, 1020, 4, 3, 1020, -4, 3, 1020, 4, -3, 1020, -4, -3};
    static const uint32_t slopes[] = {0, 1, 2, 0, 3, 4, 1, 5, 6}, held[] = {2, 3, 4, 5, 6}, left[] = {0, 1, 2, 0, 3, 4};
    const float points[] = {x, y, 0, 1020, 4, 3, 1020, -4, 3, 1020, 4, -3, 1020, -4, -3};
    expect_in(what, ridge, 7, slopes, 3, held, 5, unit, 0.5f, false, false, 0, 0, 0, 2, 1);
    if (memcmp(out_points, points, sizeof points) || memcmp(out_faces, left, sizeof left)) {
        printf("small set: %s: another mesh\n", what);
        failed++;
    }
}

/* The pair (0, 1) alone is eligible. It has the face (0, 1, 2) and leaves over far points at 1, which goes to 0: those over the points 3 and 4 are
   squashed, those over 5 and 6 turned over, those over 7 and 8 neither. The face (0, 3, 5) makes 3 and 5 neighbours of both, and nothing links them. */
static void expect_reasons(void) {
    static const float far[] = {0, 0, 0, 1, 0, 0, 0, 9, 0, 0, 4, 0, 0, 8, 0, 0.5f, 5, 0, 0.5f, -5, 0, 3, 5, 0, 3, -5, 0};
    static const struct {
        const char *what;
        uint32_t faces[4 * 3], count;
        uint64_t closed[3];
    } cases[] = {
        {"squashed", {0, 1, 2, 1, 3, 4}, 2, {0, 1, 0}},
        {"turned over", {0, 1, 2, 1, 5, 6}, 2, {0, 0, 1}},
        {"squashed, then turned over", {0, 1, 2, 1, 3, 4, 1, 5, 6}, 3, {0, 1, 0}},
        {"turned over, then squashed", {0, 1, 2, 1, 5, 6, 1, 3, 4}, 3, {0, 0, 1}},
        {"neither, then turned over, then squashed", {1, 7, 8, 1, 5, 6, 0, 1, 2, 1, 3, 4}, 4, {0, 0, 1}},
        {"not linked, and squashed", {1, 3, 4, 0, 1, 2, 0, 3, 5}, 3, {1, 0, 0}},
        {"not linked, and turned over", {0, 3, 5, 1, 5, 6, 0, 1, 2}, 3, {1, 0, 0}},
        {"not linked by one face over the other", {0, 1, 2, 0, 1, 2, 1, 5, 6}, 3, {1, 0, 0}},
        {"opened twice, and squashed", {0, 1, 2, 0, 1, 7, 1, 3, 4}, 3, {0, 1, 0}},
        {"opened three times, and turned over", {0, 1, 2, 0, 1, 7, 0, 1, 8, 1, 5, 6}, 4, {0, 0, 1}},
        {"opened by no face", {1, 0, 2, 1, 5, 6}, 2, {0, 0, 0}},
    };
    for (size_t i = 0; i < sizeof cases / sizeof *cases; i++) {
        const uint64_t *is = cases[i].closed;
        /* nothing is folded: 11; and 10 where a point is held */
        static const uint32_t held[] = {2};
        expect_held(cases[i].what, far, 9, cases[i].faces, cases[i].count, NULL, 0, 1.0f, false, true, 1.0f, 11, 0, 0, 0);
        expect_closed(cases[i].what, is[0], is[1], is[2]);
        expect_held(cases[i].what, far, 9, cases[i].faces, cases[i].count, held, 1, 1.0f, false, true, 1.0f, 10, 1, 0, 0);
        expect_closed(cases[i].what, is[0], is[1], is[2]);
        /* no fold is due, so no pair is tried */
        expect_held(cases[i].what, far, 9, cases[i].faces, cases[i].count, NULL, 0, 0x1p-25f, false, true, 1.0f, 0, 0, cases[i].count, 0);
        expect_closed(cases[i].what, 0, 0, 0);
    }
    static const uint32_t fair[] = {0, 1, 2, 1, 7, 8};
    expect("nothing in the way", far, 9, fair, 2, 1.0f, false, true, 1.0f, 0, 0, 1, 1);
    expect_closed("nothing in the way", 0, 0, 0);
}

int main(void) {
    /* pair (0, 1) squashes a face; at the two refusals no pair is eligible */
    expect("the square", square, 5, fan, 4, 0.5f, false, false, 0, 0, 0, 2, 1);
    expect_closed("the square", 0, 1, 0);
    expect("preserve on", square, 5, fan, 4, 0.5f, true, false, 0, 10, 4, 0, 0);
    expect_closed("preserve on", 0, 0, 0);
    expect("limit 1.0", square, 5, fan, 4, 0.5f, false, true, 1.0f, 11, 0, 0, 0);
    expect_closed("limit 1.0", 0, 0, 0);
    expect("limit 2.0", square, 5, fan, 4, 0.5f, false, true, 2.0f, 0, 0, 2, 1);
    expect_closed("limit 2.0", 0, 1, 0);

    /* the square's middle point held: every other pair squashes a face. Its corner 0 held: 4 is joined to 1 */
    static const uint32_t middle[] = {4}, all[] = {0, 1, 2, 3, 4}, first[] = {0}, twice[] = {0, 0}, down[] = {1, 0}, too_high[] = {5},
                          high_last[] = {0, 4, 5}, highest[] = {UINT32_MAX};
    expect_held("middle held", square, 5, fan, 4, middle, 1, 0.5f, false, false, 0, 10, 1, 0, 0);
    expect_closed("middle held", 0, 3, 0);
    expect_held("middle held, preserve on", square, 5, fan, 4, middle, 1, 0.5f, true, false, 0, 10, 5, 0, 0);
    expect_held("all held", square, 5, fan, 4, all, 5, 0.5f, false, false, 0, 10, 5, 0, 0);
    expect_held("all held, preserve on", square, 5, fan, 4, all, 5, 0.5f, true, false, 0, 10, 5, 0, 0);
    expect_held("all held, no fold due", square, 5, fan, 4, all, 5, 0x1p-25f, false, false, 0, 0, 0, 4, 0);
    expect_held("a corner held", square, 5, fan, 4, first, 1, 0.5f, false, false, 0, 0, 0, 2, 1);
    expect_closed("a corner held", 0, 1, 0);
    static const float kept_corner[] = {2, 2, 0, 0, 2, 0, 2, 0, 0, 0, 0, 0};
    if (memcmp(out_points, kept_corner, sizeof kept_corner)) {
        printf("small set: a corner held: other points\n");
        failed++;
    }
    expect_held("a point held twice", square, 5, fan, 4, twice, 2, 0.5f, false, false, 0, 12, 1, 0, 0);
    expect_held("held points descending", square, 5, fan, 4, down, 2, 0.5f, false, false, 0, 12, 1, 0, 0);
    expect_held("no such point", square, 5, fan, 4, too_high, 1, 0.5f, false, false, 0, 12, 0, 0, 0);
    expect_held("no such point, last", square, 5, fan, 4, high_last, 3, 0.5f, false, false, 0, 12, 2, 0, 0);
    expect_held("no such point, 2^32 - 1", square, 5, fan, 4, highest, 1, 0.5f, false, false, 0, 12, 0, 0, 0);
    expect_held("a bad margin at ratio zero", square, 5, fan, 4, twice, 2, 0.0f, false, false, 0, 0, 0, 4, 0);

    /* the square's one fold: 4 is joined to 0 */
    enum { NO = UNTOUCHED };
    static const uint32_t whole[] = {0, 4, NO, NO, NO, NO, NO, NO}, half[] = {0, NO, NO, NO, NO, NO, NO, NO},
                          none[] = {NO, NO, NO, NO, NO, NO, NO, NO};
    expect_folds("folds of the square", square, 5, fan, 4, 0.5f, false, HJOLTRAVAN_FOLDS(5, 4), whole);
    expect_folds("room for one number", square, 5, fan, 4, 0.5f, false, 1, half);
    expect_folds("no room", square, 5, fan, 4, 0.5f, false, 0, none);
    expect_folds("folds with preserve on", square, 5, fan, 4, 0.5f, true, FOLD_ROOM, none);
    expect_folds("folds of a copy", square, 5, fan, 4, 0.0f, false, FOLD_ROOM, none);

    static const float corner[] = {0, 0, 0, 1, 0, 0, 0, 1, 0};
    static const uint32_t triangle[] = {0, 1, 2};
    expect("one triangle, ratio 1", corner, 3, triangle, 1, 1.0f, false, false, 0, 0, 0, 0, 1);

    /* no fold is due, but points are numbered by first use */
    static const float four[] = {9, 9, 9, 0, 0, 0, 1, 0, 0, 0, 1, 0};
    static const uint32_t last_first[] = {3, 1, 2}, by_first_use[] = {0, 1, 2};
    static const float renumbered[] = {0, 1, 0, 0, 0, 0, 1, 0, 0};
    expect("ratio 2^-25", four, 4, last_first, 1, 0x1p-25f, false, false, 0, 0, 0, 1, 0);
    if (memcmp(out_faces, by_first_use, sizeof by_first_use) || memcmp(out_points, renumbered, sizeof renumbered)) {
        printf("small set: ratio 2^-25 doesn't renumber by first use\n");
        failed++;
    }

    /* ten faces at the f32 nearest to 0.1: the target is 9, so one fold is made and no more than nine faces are left */
    float strip[3 * 12];
    uint32_t ten[3 * 10];
    for (uint32_t i = 0; i < 12; i++) strip[3 * i] = (float)(i / 2), strip[3 * i + 1] = (float)(i % 2), strip[3 * i + 2] = (float)(i * i % 5) * 0.25f;
    for (uint32_t i = 0; i < 5; i++) {
        const uint32_t six[] = {2 * i, 2 * i + 2, 2 * i + 3, 2 * i, 2 * i + 3, 2 * i + 1};
        memcpy(ten + 6 * i, six, sizeof six);
    }
    expect("ten faces, ratio 0.1", strip, 12, ten, 10, 0.1f, false, false, 0, 0, 0, 9, 1);

    expect_bounds();
    expect_units();
    expect_ridge("the ridge in micrometres", HJOLTRAVAN_MICROMETRE, 1026, -0.0f);
    expect_ridge("the ridge in millimetres", HJOLTRAVAN_MILLIMETRE, 1024, 0);
    expect_reasons();

    printf("small set: %d failed\n", failed);
    return failed != 0;
}
