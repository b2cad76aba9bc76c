/* Runs the library on stored cases and compares its answers with the stored
   ones: the five numbers, the three counts of closed pairs, the bits of the
   outputs, the list of folds, and every other cell that was lent. By the folds
   alone it sees that margin points stay, and by the unit alone that no
   coordinate comes out beyond its bound.

       replay [MOST_FACES [times]] < cases

   The plain walk takes part up to MOST_FACES faces (300 unless given), and in
   every refusal. The list of folds is asked for where the header has it. The
   file is described in oracle/src/case.rs. With `times` the least time of each
   entry is said, for a file of one mesh. */

#include "../include/hjoltravan.h"
#include <signal.h>
#include <stdio.h>
#include <stdlib.h>
#include <string.h>
#include <time.h>

enum { GUARD = 16, MOST_FAMILIES = 64, MAGIC = 0x34636a68 };

static void stop(const char *why)
{
    fprintf(stderr, "replay: %s\n", why);
    exit(2);
}

static void *room(void *old, size_t words)
{
    void *cells = realloc(old, words * sizeof(uint32_t));
    if (!cells)
        stop("no memory");
    return cells;
}

/* ---- Lent memory ---- */

/* A buffer of 32-bit cells with guard cells on both sides. */
struct lent {
    uint32_t *cells;
    size_t length, room;
    uint32_t salt;
};

/* What a cell holds before the call. Read as floats, most are NaNs, quiet and
   signalling; a library that computes with what it finds there shows it. */
static uint32_t pattern(uint32_t salt, size_t place)
{
    uint32_t mixed = ((uint32_t)place + salt) * 2654435761u;
    mixed ^= mixed >> 15;
    switch (mixed & 3) {
    case 0: return 0xffffffffu;
    case 1: return 0x7f800001u | mixed >> 12;
    case 2: return 0x7ff40000u | mixed >> 16;
    default: return mixed;
    }
}

static void lend(struct lent *lent, size_t length, uint32_t salt)
{
    lent->length = length;
    lent->salt = salt;
    if (lent->room < length + 2 * GUARD) {
        lent->room = length + 2 * GUARD;
        lent->cells = room(lent->cells, lent->room);
    }
    for (size_t i = 0; i < length + 2 * GUARD; i++)
        lent->cells[i] = pattern(salt, i);
}

static uint32_t *start(const struct lent *lent)
{
    return lent->cells + GUARD;
}

/* Whether the cells from `used` on are as they were lent, and the guards. */
static bool untouched_from(const struct lent *lent, size_t used)
{
    for (size_t i = 0; i < lent->length + 2 * GUARD; i++) {
        if (i == GUARD)
            i += used;
        if (lent->cells[i] != pattern(lent->salt, i))
            return false;
    }
    return true;
}

static bool zero_up_to(const struct lent *lent, size_t used)
{
    for (size_t i = 0; i < used; i++)
        if (start(lent)[i])
            return false;
    return true;
}

static bool holds(const struct lent *lent, const uint32_t *list, size_t stored, size_t length)
{
    for (size_t i = 0; i < length; i++)
        if (start(lent)[i] != list[i % stored])
            return false;
    return true;
}

static void fill(struct lent *lent, const uint32_t *list, size_t stored)
{
    for (size_t i = 0; i < lent->length; i++)
        start(lent)[i] = list[i % stored];
}

/* ---- Cases ---- */

enum { FAMILY, UNIT, RATIO, OPTIONS, LIMIT, POINTS_LEN, FACES_LEN, MARGIN_LEN,
       OUT_POINTS_LEN, OUT_FACES_LEN, WORK_U32_LEN, WORK_F32_LEN, WORK_F64_LEN,
       NUMBER, PLACE, POINTS_OUT, FACES_OUT, FOLDS, CLOSED,
       POINTS = CLOSED + 6, FACES, MARGIN, OUT_POINTS, OUT_FACES, FOLD_LIST, HEAD };

enum { LISTS = HEAD - POINTS, REASONS = 3 };

/* The words of a case, and where its lists begin. */
struct one {
    uint32_t *word;
    const uint32_t *list[LISTS];
    size_t words;
    unsigned long number;
};

static bool read_words(uint32_t *words, size_t count)
{
    size_t got = fread(words, sizeof(uint32_t), count, stdin);
    if (got && got < count)
        stop("the file is cut short");
    return got == count;
}

static bool read_case(struct one *c, size_t *space)
{
    uint32_t words;
    if (!read_words(&words, 1))
        return false;
    if (words < HEAD)
        stop("a case is too short");
    if (*space < words)
        c->word = room(c->word, *space = words);
    if (!read_words(c->word, words))
        stop("the file is cut short");
    c->words = words;
    c->number++;
    const uint32_t *next = c->word + HEAD;
    for (int i = 0; i < LISTS; i++) {
        c->list[i] = next;
        next += c->word[POINTS + i];
    }
    if (next != c->word + words)
        stop("the lists of a case don't fit");
    return true;
}

/* A list of a case, by the word that says how much of it is stored. */
static const uint32_t *list_of(const struct one *c, int which)
{
    return c->list[which - POINTS];
}

/* Whether the call is answered before the walk. */
static bool refused(const struct one *c)
{
    uint32_t number = c->word[NUMBER];
    return (number >= 1 && number <= 9) || number == 12 || number == 24;
}

static float float_of(uint32_t bits)
{
    float value;
    memcpy(&value, &bits, sizeof value);
    return value;
}

/* ---- A call, and what it left behind ---- */

typedef __typeof__(hjoltravan_thin) thin_function;

static struct lent points, faces, margin, out_points, out_faces, work_u32, work_f32, work_f64, folds, answer, closed;

#ifdef HJOLTRAVAN_FOLDS
/* The entry that tells its folds, called like the others. */
static void thin_folds(const float *p, size_t p_len, const uint32_t *f, size_t f_len,
                       const uint32_t *m, size_t m_len, uint32_t unit, float ratio, bool preserve, bool limited, float limit,
                       float *out_p, size_t out_p_len, uint32_t *out_f, size_t out_f_len,
                       uint32_t *w_u32, size_t w_u32_len, float *w_f32, size_t w_f32_len,
                       double *w_f64, size_t w_f64_len, uint32_t *five, uint64_t *three)
{
    hjoltravan_thin_folds(p, p_len, f, f_len, m, m_len, unit, ratio, preserve, limited, limit, out_p, out_p_len, out_f, out_f_len,
                          w_u32, w_u32_len, w_f32, w_f32_len, w_f64, w_f64_len, start(&folds), folds.length, five, three);
}
#endif

/* Room for the list of folds: what suffices, and in some cases more, just
   enough, a cell too few, a part, or none. */
static size_t folds_room(const struct one *c)
{
    size_t suffices = 2 * (size_t)(c->word[FACES_LEN] / 3), made = 2 * (size_t)c->word[FOLDS];
    switch (c->number % 8) {
    case 0: return 0;
    case 1: return made;
    case 2: return made ? made - 1 : 0;
    case 3: return made / 2;
    case 4: return suffices + 5;
    default: return suffices;
    }
}

/* The cells of the list that are told: as far as there is room. */
static size_t fold_cells(const struct one *c)
{
    size_t made = 2 * (size_t)c->word[FOLDS], room = folds_room(c);
    return made < room ? made : room;
}

/* Milliseconds that the last call took. */
static double took;

static double now(void)
{
    struct timespec t;
    clock_gettime(CLOCK_MONOTONIC, &t);
    return t.tv_sec * 1e3 + t.tv_nsec * 1e-6;
}

static void call(thin_function *thin, const struct one *c)
{
    const uint32_t *w = c->word;
    uint32_t salt = (uint32_t)c->number * 40503u;
    lend(&points, w[POINTS_LEN], salt);
    lend(&faces, w[FACES_LEN], salt + 1);
    lend(&out_points, w[OUT_POINTS_LEN], salt + 2);
    lend(&out_faces, w[OUT_FACES_LEN], salt + 3);
    lend(&work_u32, w[WORK_U32_LEN], salt + 4);
    lend(&work_f32, w[WORK_F32_LEN], salt + 5);
    lend(&work_f64, 2 * (size_t)w[WORK_F64_LEN], salt + 6);
    lend(&answer, 5, salt + 7);
    lend(&folds, folds_room(c), salt + 8);
    lend(&margin, w[MARGIN_LEN], salt + 9);
    lend(&closed, 2 * REASONS, salt + 10);
    fill(&points, list_of(c, POINTS), w[POINTS]);
    fill(&faces, list_of(c, FACES), w[FACES]);
    fill(&margin, list_of(c, MARGIN), w[MARGIN]);
    double began = now();
    thin((float *)start(&points), points.length, start(&faces), faces.length,
         start(&margin), margin.length,
         w[UNIT], float_of(w[RATIO]), w[OPTIONS] & 1, w[OPTIONS] >> 1 & 1, float_of(w[LIMIT]),
         (float *)start(&out_points), out_points.length,
         start(&out_faces), out_faces.length,
         start(&work_u32), work_u32.length, (float *)start(&work_f32), work_f32.length,
         (double *)start(&work_f64), work_f64.length / 2, start(&answer), (uint64_t *)start(&closed));
    took = now() - began;
}

static const char *const answer_part[5] = {
    "answer number", "place", "points out", "faces out", "folds"
};

static const char *const closed_part[REASONS] = {
    "pairs not linked", "pairs squashed", "pairs turned over"
};

/* A count of closed pairs from two cells, the low one first. */
static unsigned long long count_of(const uint32_t *cells, int reason)
{
    return (unsigned long long)cells[2 * reason + 1] << 32 | cells[2 * reason];
}

/* Whether the first cells are zero and the others as they were lent. */
static bool cleared(const struct lent *lent, size_t stated)
{
    return zero_up_to(lent, stated) && untouched_from(lent, stated);
}

/* Whether an input is as it was given. */
static bool kept(const struct lent *lent, const uint32_t *list, size_t stored)
{
    return holds(lent, list, stored, lent->length) && untouched_from(lent, lent->length);
}

/* For each point the one that it was joined to, or itself; and whether a fold names it. */
static uint32_t *joined, *folded;

/* Follows the stored folds, over the points alone. */
static void follow_folds(const struct one *c)
{
    const uint32_t *w = c->word, *list = list_of(c, FOLD_LIST);
    size_t v = w[POINTS_LEN] / 3;
    joined = room(joined, v);
    folded = room(folded, v);
    for (size_t i = 0; i < v; i++) {
        joined[i] = (uint32_t)i;
        folded[i] = 0;
    }
    for (size_t i = 0; i < 2 * (size_t)w[FOLDS]; i += 2) {
        uint32_t keep = list[i % w[FOLD_LIST]], remove = list[(i + 1) % w[FOLD_LIST]];
        joined[remove] = keep;
        folded[keep] = folded[remove] = 1;
    }
}

/* The point that stands for a point after the folds. */
static uint32_t stands_for(uint32_t point)
{
    while (joined[point] != point) {
        /* a shorter way for the next time */
        joined[point] = joined[joined[point]];
        point = joined[point];
    }
    return point;
}

/* Whether no fold names a margin point, and every point that no fold names has
   its own bits wherever a face of the output uses it. */
static bool margin_stays(const struct one *c)
{
    const uint32_t *out = start(&out_faces), *end = out + 3 * (size_t)c->word[FACES_OUT];
    follow_folds(c);
    for (size_t i = 0; i < margin.length; i++)
        if (folded[start(&margin)[i]])
            return false;
    for (size_t i = 0; i < faces.length; i += 3) {
        uint32_t corner[3];
        for (int j = 0; j < 3; j++)
            corner[j] = stands_for(start(&faces)[i + j]);
        if (corner[0] == corner[1] || corner[1] == corner[2] || corner[2] == corner[0])
            continue;
        if (out == end)
            return false;
        for (int j = 0; j < 3; j++, out++)
            if (!folded[corner[j]] &&
                memcmp(start(&points) + 3 * corner[j], start(&out_points) + 3 * *out, 3 * sizeof(uint32_t)))
                return false;
    }
    return out == end;
}

/* Whether every coordinate that came out is at most the unit's bound in size,
   which is a matter of its bits without the sign. */
static bool within_bound(const struct one *c)
{
    uint32_t bound = c->word[UNIT] == HJOLTRAVAN_MILLIMETRE ? 0x44800000 : 0x49800000;
    for (size_t i = 0; i < 3 * (size_t)c->word[POINTS_OUT]; i++)
        if ((start(&out_points)[i] & 0x7fffffff) > bound)
            return false;
    return true;
}

/* The first thing that differs, or null. */
static const char *difference(const struct one *c, bool tells_folds)
{
    const uint32_t *w = c->word;
    bool done = w[NUMBER] == 0;
    size_t point_cells = done ? 3 * (size_t)w[POINTS_OUT] : 0;
    size_t face_cells = done ? 3 * (size_t)w[FACES_OUT] : 0;
    size_t told = tells_folds ? fold_cells(c) : 0;
    /* The stated part of the work memory is cleared unless refused. */
    size_t v = refused(c) ? 0 : w[POINTS_LEN] / 3, f = refused(c) ? 0 : w[FACES_LEN] / 3;

    for (int i = 0; i < 5; i++)
        if (start(&answer)[i] != w[NUMBER + i])
            return answer_part[i];
    for (int i = 0; i < REASONS; i++)
        if (count_of(start(&closed), i) != count_of(w + CLOSED, i))
            return closed_part[i];
    if (!holds(&folds, list_of(c, FOLD_LIST), w[FOLD_LIST], told))
        return "list of folds";
    if (!untouched_from(&folds, told))
        return "list of folds past the part used";
    if (!holds(&out_points, list_of(c, OUT_POINTS), w[OUT_POINTS], point_cells))
        return "output points";
    if (!holds(&out_faces, list_of(c, OUT_FACES), w[OUT_FACES], face_cells))
        return "output faces";
    if (!untouched_from(&out_points, point_cells))
        return "output points past the part used";
    if (!untouched_from(&out_faces, face_cells))
        return "output faces past the part used";
    if (!cleared(&work_u32, 16 * v + 32 * f))
        return "u32 work memory";
    if (!cleared(&work_f32, 4 * v + 12 * f))
        return "f32 work memory";
    if (!cleared(&work_f64, 2 * (16 * v + 6 * f)))
        return "f64 work memory";
    if (!kept(&points, list_of(c, POINTS), w[POINTS]))
        return "input points";
    if (!kept(&faces, list_of(c, FACES), w[FACES]))
        return "input faces";
    if (!kept(&margin, list_of(c, MARGIN), w[MARGIN]))
        return "input margin";
    if (!untouched_from(&answer, 5))
        return "cells beside the answer";
    if (!untouched_from(&closed, 2 * REASONS))
        return "cells beside the closed pairs";
    if (done && !within_bound(c))
        return "coordinates beyond the bound";
    /* At ratio zero neither faces nor margin are looked at. */
    if (done && float_of(w[RATIO]) != 0 && !margin_stays(c))
        return "points that must not move";
    return NULL;
}

/* ---- Telling ---- */

static void print_list(const char *name, const uint32_t *list, size_t stored, size_t length,
                       int per_line, const char *format)
{
    printf("%s (%zu)\n", name, length);
    for (size_t i = 0; i < length && i < 300; i++) {
        printf(format, list[i % stored]);
        if ((i + 1) % per_line == 0)
            printf("\n");
    }
    printf(length > 300 ? "...\n" : length % per_line ? "\n" : "");
}

static void print_answer(const char *whose, const uint32_t five[5], const uint32_t *counts)
{
    printf("%s answer %u place %u points %u faces %u folds %u closed %llu %llu %llu\n", whose,
           five[0], five[1], five[2], five[3], five[4],
           count_of(counts, 0), count_of(counts, 1), count_of(counts, 2));
}

static void print_case(const struct one *c, const char *what, const char *entry,
                       const uint32_t got[5], const uint32_t *got_closed)
{
    const uint32_t *w = c->word;
    printf("case %lu, by %s: %s\n", c->number, entry, what);
    printf("unit %u ratio %08x preserve %u limited %u limit %08x\n",
           w[UNIT], w[RATIO], w[OPTIONS] & 1, w[OPTIONS] >> 1 & 1, w[LIMIT]);
    printf("lent %u %u %u %u %u\n", w[OUT_POINTS_LEN], w[OUT_FACES_LEN],
           w[WORK_U32_LEN], w[WORK_F32_LEN], w[WORK_F64_LEN]);
    print_answer("expected", w + NUMBER, w + CLOSED);
    print_answer("got     ", got, got_closed);
    print_list("points", list_of(c, POINTS), w[POINTS], w[POINTS_LEN], 3, "%08x ");
    print_list("faces", list_of(c, FACES), w[FACES], w[FACES_LEN], 3, "%u ");
    print_list("margin", list_of(c, MARGIN), w[MARGIN], w[MARGIN_LEN], 12, "%u ");
    size_t points_out = w[POINTS_OUT], faces_out = w[FACES_OUT], folds = w[FOLDS];
    print_list("expected points", list_of(c, OUT_POINTS), w[OUT_POINTS], 3 * points_out, 3, "%08x ");
    print_list("expected faces", list_of(c, OUT_FACES), w[OUT_FACES], 3 * faces_out, 3, "%u ");
    print_list("expected folds", list_of(c, FOLD_LIST), w[FOLD_LIST], 2 * folds, 2, "%u ");
}

/* The smallest case that differs so far. */
static struct {
    struct one one;
    const char *what, *entry;
    uint32_t got[5], got_closed[2 * REASONS];
} smallest;

static size_t size_of(const struct one *c)
{
    return (size_t)c->word[POINTS_LEN] + c->word[FACES_LEN];
}

static void keep_if_smallest(const struct one *c, const char *what, const char *entry)
{
    if (smallest.what && size_of(&smallest.one) <= size_of(c))
        return;
    struct one copy = *c;
    copy.word = room(smallest.one.word, c->words);
    memcpy(copy.word, c->word, c->words * sizeof(uint32_t));
    for (int i = 0; i < LISTS; i++)
        copy.list[i] = copy.word + (c->list[i] - c->word);
    smallest.one = copy;
    smallest.what = what;
    smallest.entry = entry;
    memcpy(smallest.got, start(&answer), sizeof smallest.got);
    memcpy(smallest.got_closed, start(&closed), sizeof smallest.got_closed);
}

/* The entries, each with the least time that a call took. */
static struct entry {
    const char *name;
    thin_function *thin;
    bool tells_folds;
    double least;
} fast = { "hjoltravan_thin", hjoltravan_thin, false, 0 },
  plain = { "hjoltravan_thin_plain", hjoltravan_thin_plain, false, 0 };
#ifdef HJOLTRAVAN_FOLDS
static struct entry telling = { "hjoltravan_thin_folds", thin_folds, true, 0 };
#endif

static bool differs(struct entry *entry, const struct one *c)
{
    call(entry->thin, c);
    if (entry->least == 0 || took < entry->least)
        entry->least = took;
    const char *what = difference(c, entry->tells_folds);
    if (what)
        keep_if_smallest(c, what, entry->name);
    return what;
}

static void print_time(const struct entry *entry)
{
    if (entry->least > 0)
        printf("%s: %.1f ms\n", entry->name, entry->least);
}

static struct one c;

/* A library that falls over in a case ends the run; say at least in which. */
static void fell(int signal)
{
    fprintf(stderr, "replay: signal %d in case %lu\n", signal, c.number);
    _Exit(3);
}

int main(int count, char **argument)
{
    signal(SIGSEGV, fell);
    signal(SIGILL, fell);
    signal(SIGABRT, fell);
    size_t plain_most = count > 1 ? strtoul(argument[1], NULL, 10) : 300;
    uint32_t head[2];
    char name[MOST_FAMILIES][17] = { { 0 } };
    if (!read_words(head, 2) || head[0] != MAGIC || head[1] > MOST_FAMILIES)
        stop("this is no file of cases");
    for (uint32_t i = 0; i < head[1]; i++)
        if (!fread(name[i], 16, 1, stdin))
            stop("the file is cut short");

    unsigned long cases[MOST_FAMILIES] = { 0 }, wrong[MOST_FAMILIES] = { 0 };
    unsigned long all = 0, all_wrong = 0, by_plain = 0, told = 0, held = 0, millimetres = 0, micrometres = 0;
    unsigned long long shut[REASONS] = { 0 };
    for (size_t space = 0; read_case(&c, &space);) {
        uint32_t family = c.word[FAMILY];
        if (family >= head[1])
            stop("a case of no family");
        bool wrong_here = differs(&fast, &c);
#ifdef HJOLTRAVAN_FOLDS
        wrong_here |= differs(&telling, &c);
        told += fold_cells(&c) / 2;
#endif
        if (c.word[FOLDS])
            held += c.word[MARGIN_LEN];
        millimetres += c.word[UNIT] == HJOLTRAVAN_MILLIMETRE;
        micrometres += c.word[UNIT] == HJOLTRAVAN_MICROMETRE;
        for (int i = 0; i < REASONS; i++)
            shut[i] += count_of(c.word + CLOSED, i);
        if (refused(&c) || c.word[FACES_LEN] / 3 <= plain_most) {
            wrong_here |= differs(&plain, &c);
            by_plain++;
        }
        cases[family]++;
        wrong[family] += wrong_here;
        all++;
        all_wrong += wrong_here;
    }
    for (uint32_t i = 0; i < head[1]; i++)
        if (cases[i])
            printf("%-16s %8lu cases %8lu differ\n", name[i], cases[i], wrong[i]);
    printf("%-16s %8lu cases %8lu differ\n", "all", all, all_wrong);
    printf("%lu of the cases were run by the plain walk too; %lu folds were told one by one; %lu margin points stayed beside folds\n",
           by_plain, told, held);
    printf("%lu of the cases are in millimetres, %lu in micrometres\n", millimetres, micrometres);
    printf("pairs were closed: %llu not linked, %llu squashed, %llu turned over\n", shut[0], shut[1], shut[2]);
    if (count > 2) {
        print_time(&fast);
#ifdef HJOLTRAVAN_FOLDS
        print_time(&telling);
#endif
        print_time(&plain);
    }
    if (smallest.what) {
        printf("The smallest that differs: family %s, ", name[smallest.one.word[FAMILY]]);
        print_case(&smallest.one, smallest.what, smallest.entry, smallest.got, smallest.got_closed);
    }
    return all_wrong != 0;
}
