/* Many orders in one call (document 02, wish 5), through the C interface. Rounds of up to 64 orders at once against the same calls made
   alone, every cell of every buffer; another order's input and options changed; and calls to be refused as a whole, against a rule of
   this file's own that counts cells. */
#include "../include/hjoltravan.h"
#include <math.h>
#include <stdio.h>
#include <stdlib.h>
#include <string.h>

enum {
    ROUNDS = 300,
    PLACINGS = 40000,
    SIDE = 5,
    MOST_V = SIDE * SIDE,
    MOST_F = 2 * (SIDE - 1) * (SIDE - 1),
    POOL = 24, /* meshes in the shared inputs */
    GUARD = 7, /* cells beside the buffers that no call is lent */
    CELLS = 64 * 3 * (MOST_V + MOST_F) + 512,
    WORK_U32 = 16 * MOST_V + 32 * MOST_F + 9,
    WORK_F32 = 4 * MOST_V + 12 * MOST_F + 5,
    WORK_F64 = 16 * MOST_V + 6 * MOST_F + 3
};

/* An order as the library reads it: its fields one after another, 96 bytes. */
_Static_assert(sizeof(hjoltravan_part) == 16 && offsetof(hjoltravan_part, len) == 8, "a part is two numbers of 64 bits");
_Static_assert(offsetof(hjoltravan_order, margin) == 32 && offsetof(hjoltravan_order, unit) == 48 && offsetof(hjoltravan_order, preserve) == 56 &&
                   offsetof(hjoltravan_order, limited) == 57 && offsetof(hjoltravan_order, limit) == 60 && offsetof(hjoltravan_order, out_points) == 64 &&
                   sizeof(hjoltravan_order) == 96,
               "an order's fields lie where the library has them");

static unsigned failed;
static void fail(const char *what, long number) {
    if (failed++ < 20) printf("orders: %s (%ld)\n", what, number);
}

/* A plain generator of numbers, the same on every machine. */
static uint64_t seed = 1;
static uint32_t any(uint32_t below) {
    seed = seed * 6364136223846793005u + 1442695040888963407u;
    return (uint32_t)((seed >> 33) % below);
}

/* ---- what is lent, with a guard at its end */
typedef struct {
    float out_points[CELLS + GUARD];
    uint32_t out_faces[CELLS + GUARD];
    uint32_t u[WORK_U32 + GUARD];
    float p[WORK_F32 + GUARD];
    double q[WORK_F64 + GUARD];
    uint32_t answers[5 * 66 + GUARD];
    uint64_t closed[3 * 66 + GUARD];
} desk;

/* Every byte, those between the buffers too. */
static void set(desk *to, const desk *from) { memcpy(to, from, sizeof *to); }

/* Any bits, those of NaNs, quiet and signalling, among them: a cell that stays as it came keeps them. */
static void fill(void *cells, size_t bytes) {
    static const uint32_t ones[] = {0, 0x7f800001, 0x7ff00001}; /* any word, a NaN of 32 bits, the upper half of one of 64 */
    for (size_t i = 0; i < bytes; i += 4) {
        const uint32_t word = (any(65536) << 16 | any(65536)) | ones[any(3)];
        memcpy((uint8_t *)cells + i, &word, 4);
    }
}

/* ---- the shared inputs: meshes side by side, some of them bad */
static float points[3 * MOST_V * POOL];
static uint32_t faces[3 * MOST_F * POOL], margins[8 * POOL];
static hjoltravan_part mesh_points[POOL], mesh_faces[POOL], mesh_margin[POOL];
static size_t points_len, faces_len, margins_len;

static void lay_mesh(int m) {
    const uint32_t side = 2 + any(SIDE - 1), v = side * side;
    float *p = points + points_len;
    uint32_t *f = faces + faces_len, *held = margins + margins_len;
    size_t np = 0, nf = 0, nm = 0;
    for (uint32_t y = 0; y < side; y++)
        for (uint32_t x = 0; x < side; x++) {
            p[np++] = (float)x, p[np++] = (float)y;
            p[np++] = any(3) ? 0.125f * (float)any(8) : 0;
        }
    for (uint32_t y = 0; y + 1 < side; y++)
        for (uint32_t x = 0; x + 1 < side; x++) {
            const uint32_t a = y * side + x, b = a + 1, c = a + side, d = c + 1;
            const uint32_t two[] = {a, b, d, a, d, c};
            memcpy(f + nf, two, sizeof two), nf += 6;
        }
    for (uint32_t i = 0; i < v && nm < 4; i += 1 + any(v)) held[nm++] = i;
    switch (any(24)) { /* refused by 1, 4, 7, 8, 9 and 12 */
    case 0: np -= any(3); break;
    case 1: np = 0; break;
    case 2: p[any((uint32_t)np)] = any(2) ? INFINITY : 2000000; break;
    case 3: f[any((uint32_t)nf)] = v + any(9); break;
    case 4: f[0] = f[1]; break;
    case 5: held[0] = v; nm = nm ? nm : 1; break;
    }
    mesh_points[m] = (hjoltravan_part){points_len, np}, points_len += np;
    mesh_faces[m] = (hjoltravan_part){faces_len, nf}, faces_len += nf;
    mesh_margin[m] = (hjoltravan_part){margins_len, nm}, margins_len += nm;
}

static void lay_pool(void) {
    points_len = faces_len = margins_len = 0;
    for (int m = 0; m < POOL; m++) lay_mesh(m);
}

static void any_options(hjoltravan_order *o) {
    static const float ratios[] = {0, 0.25f, 0.5f, 0.5f, 0.5f, 0.75f, 0.75f, 0.9f, 0.9f, 0.9f, 1, 1, 1, 1, -1, NAN};
    o->unit = any(20) ? 1 + any(2) : any(4);
    o->ratio = ratios[any(sizeof ratios / sizeof *ratios)];
    o->preserve = any(2);
    o->limited = any(3) == 0;
    o->limit = any(12) ? 1 + 0.5f * (float)any(4) : NAN;
}

/* Parts of a buffer for n orders, in an order of their own: touching, with gaps, or empty. Returns how many cells they take. */
static size_t deal(hjoltravan_part *parts, const size_t *wanted, int n) {
    int turn[64];
    size_t at = any(3);
    for (int i = 0; i < n; i++) turn[i] = i;
    for (int i = n - 1; i > 0; i--) {
        const int j = (int)any((uint32_t)i + 1), t = turn[i];
        turn[i] = turn[j], turn[j] = t;
    }
    if (any(4) == 0)
        for (int i = 0; i < n; i++) turn[i] = n - 1 - i; /* the last order first */
    for (int i = 0; i < n; i++) {
        parts[turn[i]] = (hjoltravan_part){at, wanted[turn[i]]};
        at += wanted[turn[i]] + (any(3) ? 0 : any(4));
    }
    return at;
}

static hjoltravan_order orders[65];
static size_t out_points_len, out_faces_len;

static void any_orders(int n) {
    hjoltravan_part out_points[64], out_faces[64];
    size_t want_points[64], want_faces[64];
    for (int k = 0; k < n; k++) {
        const uint32_t m = any(POOL);
        orders[k].points = mesh_points[m], orders[k].faces = mesh_faces[m];
        orders[k].margin = any(2) ? mesh_margin[m] : (hjoltravan_part){any((uint32_t)margins_len + 1), 0};
        any_options(&orders[k]);
        want_points[k] = any(20) ? orders[k].points.len + any(4) : any(5); /* now and then too short: 3 */
        want_faces[k] = any(20) ? orders[k].faces.len + any(4) : 0;
    }
    out_points_len = deal(out_points, want_points, n) + any(3);
    out_faces_len = deal(out_faces, want_faces, n) + any(3);
    for (int k = 0; k < n; k++) orders[k].out_points = out_points[k], orders[k].out_faces = out_faces[k];
}

/* ---- the calls */
static size_t work_u32, work_f32, work_f64;

static uint32_t thin_orders(desk *d, size_t n, size_t answers, size_t closed) {
    return hjoltravan_thin_orders(orders, n, points, points_len, faces, faces_len, margins, margins_len, d->out_points, out_points_len,
                                  d->out_faces, out_faces_len, d->u, work_u32, d->p, work_f32, d->q, work_f64, d->answers, answers,
                                  d->closed, closed);
}

/* The order k alone, on its parts of d and over a work memory; its answer goes where the caller says. */
static void thin_alone(desk *d, desk *work, int k, uint32_t *answer, uint64_t *closed) {
    const hjoltravan_order *o = &orders[k];
    hjoltravan_thin(points + o->points.from, o->points.len, faces + o->faces.from, o->faces.len, margins + o->margin.from, o->margin.len,
                    o->unit, o->ratio, o->preserve, o->limited, o->limit, d->out_points + o->out_points.from, o->out_points.len,
                    d->out_faces + o->out_faces.from, o->out_faces.len, work->u, work_u32, work->p, work_f32, work->q, work_f64, answer,
                    closed);
}

static desk before, together, alone, other, fresh;
static unsigned answered[25];

/* The stated part of an order, where it was worked in: after 0, 10 and 11. */
static void longer(size_t *longest, size_t stated, uint32_t number) {
    if ((number == 0 || number == 10 || number == 11) && *longest < stated) *longest = stated;
}

/* The work memory is zero as far as the longest stated part, and the rest is as it came. */
static void check_work(int n, long round) {
    size_t u = 0, p = 0, q = 0;
    for (int k = 0; k < n; k++) {
        const size_t v = orders[k].points.len / 3, f = orders[k].faces.len / 3;
        longer(&u, HJOLTRAVAN_WORK_U32(v, f), together.answers[5 * k]);
        longer(&p, HJOLTRAVAN_WORK_F32(v, f), together.answers[5 * k]);
        longer(&q, HJOLTRAVAN_WORK_F64(v, f), together.answers[5 * k]);
    }
    set(&other, &before);
    memset(other.u, 0, u * sizeof *other.u);
    memset(other.p, 0, p * sizeof *other.p);
    memset(other.q, 0, q * sizeof *other.q);
    if (memcmp(other.u, together.u, sizeof other.u) || memcmp(other.p, together.p, sizeof other.p) || memcmp(other.q, together.q, sizeof other.q))
        fail("work memory isn't zero up to the longest stated part and else as it came", round);
}

/* Whether two states have the same answer and output of the order k. */
static bool same_order(const desk *a, const desk *b, int k) {
    const hjoltravan_part p = orders[k].out_points, f = orders[k].out_faces;
    return !memcmp(a->answers + 5 * k, b->answers + 5 * k, 5 * sizeof *a->answers) && !memcmp(a->closed + 3 * k, b->closed + 3 * k, 3 * sizeof *a->closed) &&
           !memcmp(a->out_points + p.from, b->out_points + p.from, p.len * sizeof *a->out_points) &&
           !memcmp(a->out_faces + f.from, b->out_faces + f.from, f.len * sizeof *a->out_faces);
}

/* All orders at once, one after another, and each alone over a work memory of its own. */
static void check_alone(int n, long round) {
    set(&together, &before);
    set(&alone, &before);
    if (thin_orders(&together, (size_t)n, 5 * 66, 3 * 66) != 0) fail("a good call is refused", round);
    for (int k = 0; k < n; k++) thin_alone(&alone, &alone, k, alone.answers + 5 * k, alone.closed + 3 * k);
    if (memcmp(&together, &alone, sizeof together)) fail("together isn't one after another", round);
    for (int k = 0; k < n; k++) {
        set(&other, &before);
        fill(fresh.u, sizeof fresh.u), fill(fresh.p, sizeof fresh.p), fill(fresh.q, sizeof fresh.q);
        thin_alone(&other, &fresh, k, other.answers + 5 * k, other.closed + 3 * k);
        if (!same_order(&together, &other, k)) fail("an order isn't as alone", round);
        answered[together.answers[5 * k] < 25 ? together.answers[5 * k] : 24]++;
    }
    check_work(n, round);
}

/* Whether a part has a cell. */
static bool has(hjoltravan_part p, size_t cell) { return p.from <= cell && cell < p.from + p.len; }

/* The options of all orders but one, and input cells that the one doesn't have, are changed: its answer and output stay. */
static void check_isolated(int n, long round) {
    static float old_points[sizeof points / sizeof *points];
    static uint32_t old_faces[sizeof faces / sizeof *faces], old_margins[sizeof margins / sizeof *margins];
    const int k = (int)any((uint32_t)n);
    memcpy(old_points, points, sizeof points), memcpy(old_faces, faces, sizeof faces), memcpy(old_margins, margins, sizeof margins);
    for (int i = 0; i < n; i++)
        if (i != k) any_options(&orders[i]);
    for (size_t i = 0; i < points_len; i++)
        if (!has(orders[k].points, i) && any(4) == 0) points[i] = (float)any(9);
    for (size_t i = 0; i < faces_len; i++)
        if (!has(orders[k].faces, i) && any(9) == 0) faces[i] = any(30);
    for (size_t i = 0; i < margins_len; i++)
        if (!has(orders[k].margin, i) && any(2) == 0) margins[i] = any(30);
    set(&fresh, &before);
    if (thin_orders(&fresh, (size_t)n, 5 * 66, 3 * 66) != 0) fail("a changed call is refused", round);
    if (!same_order(&fresh, &together, k)) fail("another order's change is seen", round);
    memcpy(points, old_points, sizeof points), memcpy(faces, old_faces, sizeof faces), memcpy(margins, old_margins, sizeof margins);
}

/* ---- the whole call refused, by this file's own rule */
static bool outside(hjoltravan_part p, size_t cells) { return p.len > cells || p.from > cells - p.len; }

/* Whether some cell is in two of the parts, by counting. */
static bool twice(const hjoltravan_part *parts, int n, size_t cells) {
    static uint8_t seen[CELLS];
    memset(seen, 0, cells);
    for (int k = 0; k < n; k++)
        for (size_t i = 0; i < parts[k].len; i++)
            if (seen[parts[k].from + i]++) return true;
    return false;
}

static bool to_be_refused(int n, size_t answers, size_t closed) {
    hjoltravan_part p[65], f[65];
    if (n > 64 || answers < 5 * (size_t)n || closed < 3 * (size_t)n) return true;
    for (int k = 0; k < n; k++) {
        const hjoltravan_order *o = &orders[k];
        if (outside(o->points, points_len) || outside(o->faces, faces_len) || outside(o->margin, margins_len) ||
            outside(o->out_points, out_points_len) || outside(o->out_faces, out_faces_len))
            return true;
        p[k] = o->out_points, f[k] = o->out_faces;
    }
    return twice(p, n, out_points_len) || twice(f, n, out_faces_len);
}

static unsigned refusals, accepted;

/* A call that is refused writes nothing; one that isn't is answered 0. */
static void check_whole(int n, size_t answers, size_t closed, long number) {
    const bool expected = to_be_refused(n, answers, closed);
    set(&together, &before);
    const uint32_t got = thin_orders(&together, (size_t)n, answers, closed);
    if (got != (expected ? 41 : 0)) fail("the whole call's number is wrong", number);
    if (expected && memcmp(&together, &before, sizeof before)) fail("a refused call has written", number);
    *(expected ? &refusals : &accepted) += 1;
}

/* One thing wrong with a good call, and each neighbour that is right. */
static void check_edges(int n, long round) {
    check_whole(n, 5 * (size_t)n, 3 * (size_t)n, round);
    if (n == 0) return;
    check_whole(n, 5 * (size_t)n - 1, 3 * (size_t)n, round);
    check_whole(n, 5 * (size_t)n, 3 * (size_t)n - 1, round);
    const int k = (int)any((uint32_t)n);
    hjoltravan_order kept = orders[k];
    hjoltravan_part *parts[] = {&orders[k].points, &orders[k].faces, &orders[k].margin, &orders[k].out_points, &orders[k].out_faces};
    const size_t cells[] = {points_len, faces_len, margins_len, out_points_len, out_faces_len};
    for (int i = 0; i < 5; i++) {
        const hjoltravan_part wrong[] = {{cells[i], 0}, {cells[i] + 1, 0}, {cells[i], 1}, {0, cells[i] + 1}, {SIZE_MAX, 0},
                                         {SIZE_MAX, 2}, {SIZE_MAX - 1, 1}, {1, SIZE_MAX}, {SIZE_MAX, SIZE_MAX}, {2, SIZE_MAX - 1}};
        for (size_t w = 0; w < sizeof wrong / sizeof *wrong; w++) {
            *parts[i] = wrong[w];
            check_whole(n, 5 * 66, 3 * 66, round);
        }
        orders[k] = kept;
    }
    for (int i = 0; i < n; i++) { /* one cell further, either way: it touches its neighbour or shares a cell with it */
        kept = orders[i];
        orders[i].out_points.len++;
        check_whole(n, 5 * 66, 3 * 66, round);
        orders[i] = kept;
        if (kept.out_faces.from) orders[i].out_faces.from--;
        check_whole(n, 5 * 66, 3 * 66, round);
        orders[i] = kept;
    }
}

/* Small parts anywhere in small buffers. */
static void check_placings(void) {
    for (long i = 0; i < PLACINGS; i++) {
        const int n = (int)any(5);
        points_len = any(9), faces_len = any(9), margins_len = any(5), out_points_len = any(12), out_faces_len = any(12);
        for (int k = 0; k < n; k++) {
            hjoltravan_order *o = &orders[k];
            any_options(o);
            o->points = (hjoltravan_part){any(4), any(5)}, o->faces = (hjoltravan_part){any(4), any(5)};
            o->margin = (hjoltravan_part){any(3), any(3)};
            o->out_points = (hjoltravan_part){any(12), any(4)}, o->out_faces = (hjoltravan_part){any(12), any(4)};
        }
        check_whole(n, 5 * (size_t)n + any(3), 3 * (size_t)n + any(3), i);
    }
}

int main(void) {
    for (long round = 0; round < ROUNDS; round++) {
        const int n = round % 3 == 0 ? 64 : (int)any(65);
        lay_pool();
        any_orders(n);
        work_u32 = WORK_U32 - any(12), work_f32 = WORK_F32 - any(8), work_f64 = WORK_F64 - any(6); /* at times too short for the largest */
        fill(&before, sizeof before);
        check_alone(n, round);
        if (n > 0) check_isolated(n, round);
        if (round % 10 == 0) check_edges(n, round);
        orders[64] = orders[0]; /* a 65th, of which nothing else is wrong */
        orders[64].out_points.len = orders[64].out_faces.len = 0;
        if (n == 64) check_whole(65, 5 * 66, 3 * 66, round);
    }
    check_placings();
    printf("orders: %d rounds of up to 64 orders, %u answered 0, %u refused by 1 to 9, 12 and 24, %u by 10 and 11; %u whole calls refused, %u not; %u wrong\n",
           ROUNDS, answered[0], answered[1] + answered[2] + answered[3] + answered[4] + answered[5] + answered[6] + answered[7] + answered[8] + answered[9] + answered[12] + answered[24],
           answered[10] + answered[11], refusals, accepted, failed);
    return failed != 0;
}
