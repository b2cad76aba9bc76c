/* Runs single operations on stored bit patterns and compares the patterns that
   come out with the stored ones.

       single < cases

   The file is described in oracle/src/single_cases.rs. Words beside each array
   that is written are looked at too. */

#include <stdbool.h>
#include <stdint.h>
#include <stdio.h>
#include <stdlib.h>
#include <string.h>

/* The crate `probes`, for tests alone. */
void single_plane(const uint32_t points[9], uint64_t out[4]);
uint64_t single_error(const uint64_t quadric[10], const uint32_t point[3]);
bool single_inverse(const uint64_t rows[9], uint64_t first[3], uint64_t second[3], uint64_t third[3]);
uint32_t single_length(const uint32_t points[6]);
void single_place(uint32_t bound, const uint32_t points[6], const uint64_t quadrics[20], uint32_t out[3]);
uint64_t single_cost(uint32_t bound, const uint32_t points[6], const uint64_t quadrics[20]);

enum { PLANE, ERROR, INVERSE, LENGTH, PLACE, NAN_PLACE, KINDS, MAGIC = 0x32736a68, MOST = 64 };

/* A kind of case: the words of its input and of its answer. */
static const struct {
    const char *name;
    size_t in, out;
} kind[KINDS] = {
    [PLANE] = { "plane", 9, 8 },
    [ERROR] = { "error", 20 + 3, 2 },
    [INVERSE] = { "inverse", 18, 1 + 18 },
    [LENGTH] = { "length", 6, 1 },
    [PLACE] = { "place and cost", 1 + 6 + 40, 3 + 2 },
    [NAN_PLACE] = { "place, NaN error", 1 + 6 + 40, 3 + 2 },
};

static void stop(const char *why)
{
    fprintf(stderr, "single: %s\n", why);
    exit(2);
}

/* What the cells hold before a call; the last one is beside the array. */
enum { FILLED = 0xa5 };

static bool beside_untouched(uint64_t cell)
{
    uint64_t filled;
    memset(&filled, FILLED, sizeof filled);
    return cell == filled;
}

static void take(void *to, const uint32_t *words, size_t count)
{
    memcpy(to, words, count * sizeof *words);
}

static bool ask_plane(const uint32_t *in, uint32_t *got)
{
    uint64_t out[5];
    memset(out, FILLED, sizeof out);
    single_plane(in, out);
    memcpy(got, out, 4 * sizeof *out);
    return beside_untouched(out[4]);
}

static bool ask_error(const uint32_t *in, uint32_t *got)
{
    uint64_t quadric[10];
    take(quadric, in, 20);
    uint64_t answer = single_error(quadric, in + 20);
    memcpy(got, &answer, sizeof answer);
    return true;
}

static bool ask_inverse(const uint32_t *in, uint32_t *got)
{
    uint64_t rows[9], out[3][4];
    take(rows, in, 18);
    memset(out, FILLED, sizeof out);
    got[0] = single_inverse(rows, out[0], out[1], out[2]);
    for (int row = 0; row < 3; row++)
        memcpy(got + 1 + 6 * row, out[row], 3 * sizeof **out);
    return beside_untouched(out[0][3]) && beside_untouched(out[1][3]) && beside_untouched(out[2][3]);
}

static bool ask_length(const uint32_t *in, uint32_t *got)
{
    *got = single_length(in);
    return true;
}

static bool ask_place(const uint32_t *in, uint32_t *got)
{
    uint64_t quadrics[20], beside;
    uint32_t bound = in[0], out[5];
    const uint32_t *points = in + 1;
    take(quadrics, in + 7, 40);
    memset(out, FILLED, sizeof out);
    single_place(bound, points, quadrics, out);
    memcpy(got, out, 3 * sizeof *out);
    uint64_t cost = single_cost(bound, points, quadrics);
    memcpy(got + 3, &cost, sizeof cost);
    memcpy(&beside, out + 3, sizeof beside);
    return beside_untouched(beside);
}

static bool (*const ask[KINDS])(const uint32_t *, uint32_t *) = {
    ask_plane, ask_error, ask_inverse, ask_length, ask_place, ask_place
};

static void print_words(const char *what, const uint32_t *words, size_t count)
{
    printf("%s", what);
    for (size_t i = 0; i < count; i++)
        printf(" %08x", words[i]);
    printf("\n");
}

static bool read_words(uint32_t *words, size_t count)
{
    size_t got = fread(words, sizeof *words, count, stdin);
    if (got && got < count)
        stop("the file is cut short");
    return got == count;
}

int main(void)
{
    unsigned long cases[KINDS] = { 0 }, wrong[KINDS] = { 0 }, all = 0, all_wrong = 0;
    uint32_t word, in[MOST], expected[MOST], got[MOST];
    if (!read_words(&word, 1) || word != MAGIC)
        stop("this is no file of single operations");
    while (read_words(&word, 1)) {
        if (word >= KINDS)
            stop("a case of no kind");
        if (!read_words(in, kind[word].in) || !read_words(expected, kind[word].out))
            stop("the file is cut short");
        bool kept = ask[word](in, got);
        bool same = kept && !memcmp(got, expected, kind[word].out * sizeof *got);
        if (!same && wrong[word]++ < 3) {
            printf("case %lu, %s%s\n", all, kind[word].name, kept ? "" : ": a cell beside the answer was written");
            print_words("  in      ", in, kind[word].in);
            print_words("  expected", expected, kind[word].out);
            print_words("  got     ", got, kind[word].out);
        }
        cases[word]++;
        all++;
        all_wrong += !same;
    }
    for (int i = 0; i < KINDS; i++)
        printf("%-16s %9lu cases %9lu differ\n", kind[i].name, cases[i], wrong[i]);
    printf("%-16s %9lu cases %9lu differ\n", "all", all, all_wrong);
    return all_wrong != 0;
}
