/* Meshes written as files and read back by the proved writer and reader, one after the other. What comes back is compared with what was
   written, bit for bit but for a NaN, and every cell past it with what stood there. */
#include <stdbool.h>
#include <stdint.h>
#include <stdio.h>
#include <string.h>

/* The unit that was read, or 0 where the writer refuses or a list is too short. */
uint32_t write_and_read(uint32_t unit, const float *points, size_t points_len, const uint32_t *faces, size_t faces_len,
                        uint8_t *file, size_t file_len, float *out_points, size_t out_points_len, uint32_t *out_faces,
                        size_t out_faces_len);

enum { MOST_POINTS = 3 * 131, MOST_FACES = 3 * 259, ROOM = 30 + 4 * MOST_POINTS + 4 * MOST_FACES };

/* xorshift64*: the same numbers in every run */
static uint64_t state = 0x9e3779b97f4a7c15u;

static uint32_t any(void)
{
    state ^= state >> 12;
    state ^= state << 25;
    state ^= state >> 27;
    return (uint32_t)((state * 0x2545f4914f6cdd1du) >> 32);
}

/* Any pattern, most often one of a number, at times a NaN's, an infinity's or a zero's. */
static uint32_t any_pattern(void)
{
    static const uint32_t edges[] = {0x7fc00000, 0xffc00001, 0x7f800001, 0x7f800000, 0xff800000, 0, 0x80000000, 1};
    uint32_t pattern = any();
    return pattern % 16 < 8 ? edges[pattern % 8] : pattern;
}

static bool is_nan(uint32_t pattern)
{
    return (pattern & 0x7fffffff) > 0x7f800000;
}

static unsigned long back, refused, differ;

/* One mesh of such lengths, with so many cells in the file and in the lists to read into. */
static void compare(uint32_t unit, size_t p, size_t f, size_t room, size_t out_p, size_t out_f)
{
    static uint32_t points[MOST_POINTS], faces[MOST_FACES], out_points[MOST_POINTS], out_faces[MOST_FACES];
    static uint32_t old_points[MOST_POINTS], old_faces[MOST_FACES];
    static uint8_t file[ROOM];
    for (size_t i = 0; i < MOST_POINTS; i++)
        points[i] = any_pattern(), old_points[i] = out_points[i] = any_pattern();
    for (size_t i = 0; i < MOST_FACES; i++)
        faces[i] = any(), old_faces[i] = out_faces[i] = any();
    uint32_t got = write_and_read(unit, (const void *)points, p, faces, f, file, room, (void *)out_points, out_p, out_faces, out_f);

    bool good = p % 3 == 0 && f % 3 == 0 && (unit == 1 || unit == 2) && p <= 384 && f <= 768 && 30 + 4 * p + 4 * f <= room
                && p <= out_p && f <= out_f;
    bool same = got == (good ? unit : 0);
    for (size_t i = 0; i < MOST_POINTS; i++)
        same &= good && i < p ? out_points[i] == points[i] || (is_nan(out_points[i]) && is_nan(points[i])) : out_points[i] == old_points[i];
    for (size_t i = 0; i < MOST_FACES; i++)
        same &= out_faces[i] == (good && i < f ? faces[i] : old_faces[i]);
    *(good ? &back : &refused) += 1;
    if (!same && !differ++)
        printf("round trip: unit %u, %zu and %zu numbers, room %zu: %u\n", unit, p, f, room, got);
}

int main(void)
{
    static const size_t few[] = {0, 3, 6, 3 * 64, 3 * 127, 384, 387}, more[] = {0, 3, 6, 3 * 128, 3 * 255, 768, 771};
    for (int i = 0; i < 7; i++)
        for (int j = 0; j < 7; j++)
            for (uint32_t unit = 0; unit < 4; unit++) {
                size_t p = few[i], f = more[j], end = 30 + 4 * p + 4 * f;
                compare(unit, p, f, end, p, f);
                compare(unit, p, f, end - 1, p, f);
                compare(unit, p, f, end, p ? p - 1 : 0, f);
                compare(unit, p, f, end, p, f ? f - 1 : 0);
                compare(unit, p, f, ROOM, MOST_POINTS, MOST_FACES);
            }
    for (int i = 0; i < 5000; i++)
        compare(1 + any() % 2, any() % 8 ? 3 * (any() % 129) : any() % 388, any() % 8 ? 3 * (any() % 257) : any() % 772,
                ROOM - any() % 2 * (any() % ROOM), MOST_POINTS, MOST_FACES);
    printf("round trip: %lu came back, %lu were refused; %lu differ\n", back, refused, differ);
    return differ != 0 || !back || !refused;
}
