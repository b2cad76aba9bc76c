/* The writer of scan files. The proved writer beside a second one, written below from the text of document 01 and
   Wish 1 and in another way: a stream grows byte by byte, and a record's head is filled in when its payload is done.
   They are compared on the answer and on every byte of the lent buffer, written or not; the inputs must stay as they
   came, and what was written is read back. All that is lent ends against a page that can't be touched. */
#define _GNU_SOURCE
#include "../include/hjoltravan.h"
#include <stdbool.h>
#include <stdint.h>
#include <stdio.h>
#include <stdlib.h>
#include <string.h>
#include <sys/mman.h>
#include <unistd.h>

/* The answer. */
enum { NUMBER, PLACE, WRITTEN, CELLS };
enum { MOST = 4638, BEFORE = 64, SLACK = 1000 };
enum { FAR_POINTS = 3 * 100000, FAR_FACES = 3 * 200000, FAR_FILE = 30 + 4 * FAR_POINTS + 4 * FAR_FACES };

/* One call: what is lent, with the points as bits, and how long the buffer is. */
struct call {
    uint32_t unit;
    const uint32_t *points, *faces;
    size_t points_len, faces_len, room;
};

/* ---- The second writer ---- */

/* What has been written so far. */
struct stream {
    size_t length;
    uint8_t bytes[MOST];
};

/* Adds a little-endian number of so many bytes. */
static void emit(struct stream *s, uint64_t number, int bytes)
{
    for (; bytes > 0; bytes--, number >>= 8) {
        if (s->length == MOST)
            abort();
        s->bytes[s->length++] = (uint8_t)(number & 255);
    }
}

/* Keeps room for a record's head, and tells where it is. */
static size_t open_record(struct stream *s)
{
    size_t start = s->length;
    emit(s, 0, 6);
    return start;
}

/* "Each record is a 4-byte payload length, a 2-byte kind, the payload": the length is what came after the head. */
static void close_record(struct stream *s, size_t start, unsigned kind)
{
    size_t end = s->length;
    s->length = start;
    emit(s, (end - start - 6) | (uint64_t)kind << 32, 6);
    s->length = end;
}

/* A float's bits as they are written: a NaN is one whose bits without the sign are above those of infinity. */
static uint32_t written_bits(uint32_t bits)
{
    return bits << 1 > 0xff000000u ? 0x7fc00000u : bits;
}

/* "kind 1 with the unit, flags zero, ratio zero and limit zero, then points and faces" */
static void write_again(struct stream *s, const struct call *c)
{
    s->length = 0;
    size_t start = open_record(s);
    emit(s, c->unit, 2);
    emit(s, 0, 2 + 4 + 4);
    close_record(s, start, 1);
    start = open_record(s);
    for (const uint32_t *p = c->points; p != c->points + c->points_len; p++)
        emit(s, written_bits(*p), 4);
    close_record(s, start, 2);
    start = open_record(s);
    for (const uint32_t *p = c->faces; p != c->faces + c->faces_len; p++)
        emit(s, *p, 4);
    close_record(s, start, 3);
}

/* "Refusals, which leave the lent buffer unchanged: 1 as in document 01, 24 and 27 as for the reader, then 31 buffer
   shorter than 30+12V+12F." For 27 the place is that of the record which would hold too many. */
static void refuse_again(const struct call *c, uint32_t answer[CELLS])
{
    size_t v = c->points_len / 3, f = c->faces_len / 3;
    memset(answer, 0, CELLS * sizeof *answer);
    if (3 * v != c->points_len || 3 * f != c->faces_len) {
        answer[NUMBER] = 1;
    } else if (c->unit != 1 && c->unit != 2) {
        answer[NUMBER] = 24;
    } else if (v > 128) {
        answer[NUMBER] = 27;
        answer[PLACE] = 18;
    } else if (f > 256) {
        answer[NUMBER] = 27;
        answer[PLACE] = (uint32_t)(24 + 12 * v);
    } else if (c->room < 30 + 12 * v + 12 * f) {
        answer[NUMBER] = 31;
    }
}

/* ---- Reading back ---- */

/* What is still to be read. */
struct reader {
    const uint8_t *next, *end;
};

/* Eats a little-endian number of so many bytes, and says whether it was there and the wanted one. */
static bool eat(struct reader *r, int bytes, uint64_t wanted)
{
    uint64_t number = 0;
    if (r->end - r->next < bytes)
        return false;
    for (int i = bytes; i-- > 0;)
        number = number * 256 + r->next[i];
    r->next += bytes;
    return number == wanted;
}

/* A float's bits as they are read: here a NaN is what doesn't equal itself. */
static uint32_t read_bits(uint32_t bits)
{
    float value;
    memcpy(&value, &bits, sizeof value);
    return value != value ? 0x7fc00000u : bits;
}

/* "Reading the written bytes gives back the same unit, point bits and faces": says whether it does, up to the NaNs. */
static bool read_back(const uint8_t *bytes, size_t length, const struct call *c)
{
    struct reader r = {bytes, bytes + length};
    bool same = eat(&r, 4, 12) && eat(&r, 2, 1);
    same = same && eat(&r, 2, c->unit) && eat(&r, 2, 0) && eat(&r, 4, 0) && eat(&r, 4, 0);
    same = same && eat(&r, 4, 4 * c->points_len) && eat(&r, 2, 2);
    for (size_t i = 0; same && i < c->points_len; i++)
        same = eat(&r, 4, read_bits(c->points[i]));
    same = same && eat(&r, 4, 4 * c->faces_len) && eat(&r, 2, 3);
    for (size_t i = 0; same && i < c->faces_len; i++)
        same = eat(&r, 4, c->faces[i]);
    return same && r.next == r.end;
}

/* ---- Numbers ---- */

/* xorshift64*: the same numbers in every run */
static uint64_t state = 0x9e3779b97f4a7c15u;

static uint32_t any_word(void)
{
    state ^= state >> 12;
    state ^= state << 25;
    state ^= state >> 27;
    return (uint32_t)((state * 0x2545f4914f6cdd1du) >> 32);
}

/* Any number below this one. */
static uint32_t any(uint32_t below)
{
    return any_word() % below;
}

/* The bits of any float, with many NaNs, quiet and signalling, infinities, zeros and subnormals, of both signs. */
static uint32_t any_float(void)
{
    static const uint32_t nans[] = {0x7f800001, 0x7fbfffff, 0x7fc00000, 0x7fc00001, 0x7fffffff};
    uint32_t sign = any_word() & 0x80000000u;
    switch (any(10)) {
    case 0:
        return sign | nans[any(5)];
    case 1:
        return sign | 0x7fc00000u | any(0x400000);
    case 2:
        return sign | 0x7f800000u | (1 + any(0x3fffff));
    case 3:
        return sign | 0x7f800000u;
    case 4:
        return sign;
    case 5:
        return sign | any(0x800000);
    default:
        return any_word();
    }
}

/* Any number that a face could hold: mostly one that no point has. */
static uint32_t any_corner(void)
{
    switch (any(8)) {
    case 0:
        return any(128);
    case 1:
        return 0u - any(3);
    default:
        return any_word();
    }
}

/* Where the points, the faces and the bytes that fill a buffer before a call are taken from. */
static uint32_t all_points[FAR_POINTS + SLACK], all_faces[FAR_FACES + SLACK];
static uint8_t pattern[BEFORE + FAR_FILE + 2 * SLACK];

/* Makes them, once. */
static void fill(void)
{
    for (size_t i = 0; i < FAR_POINTS + SLACK; i++)
        all_points[i] = any_float();
    for (size_t i = 0; i < FAR_FACES + SLACK; i++)
        all_faces[i] = any_corner();
    for (size_t i = 0; i < sizeof pattern; i++)
        pattern[i] = (uint8_t)any_word();
}

/* ---- Both writers on one call ---- */

/* The first bytes that can't be touched, after each part that is lent. */
static uint8_t *points_edge, *faces_edge, *file_edge, *answer_edge;
static unsigned long answers[32], differ;

/* Says the first difference in words, at once lest a crash follows, and counts all. */
static void tell(const struct call *c, const char *words)
{
    if (!differ++) {
        printf("writer: unit %u, %zu numbers for points, %zu for faces, buffer of %zu bytes: %s\n", c->unit,
               c->points_len, c->faces_len, c->room, words);
        fflush(stdout);
    }
}

/* Says which byte of the buffer is the first that isn't as expected. */
static void tell_byte(const struct call *c, const uint8_t *file, const struct stream *s, const uint8_t *rest)
{
    char words[100];
    size_t at = 0;
    while (file[at] == (at < s->length ? s->bytes[at] : rest[at]))
        at++;
    if (at < s->length)
        snprintf(words, sizeof words, "byte %zu is %02x, expected %02x", at, file[at], s->bytes[at]);
    else
        snprintf(words, sizeof words, "byte %zu was changed, though %zu are written", at, s->length);
    tell(c, words);
}

/* Says both answers. */
static void tell_answer(const struct call *c, const uint32_t ours[CELLS], const uint32_t theirs[CELLS])
{
    char words[150];
    snprintf(words, sizeof words, "answer %u place %u written %u, expected %u place %u written %u", ours[NUMBER],
             ours[PLACE], ours[WRITTEN], theirs[NUMBER], theirs[PLACE], theirs[WRITTEN]);
    tell(c, words);
}

/* Whether the buffer holds what the stream does, and after that what it was filled with. */
static bool same_file(const struct call *c, const uint8_t *file, const struct stream *s, const uint8_t *rest)
{
    return !memcmp(file, s->bytes, s->length) && !memcmp(file + s->length, rest + s->length, c->room - s->length);
}

/* Lends all parts, calls the proved writer, and compares with the second one. */
static void compare(const struct call *c)
{
    static struct stream s;
    uint32_t theirs[CELLS], ours[CELLS];
    uint8_t *points = points_edge - 4 * c->points_len, *faces = faces_edge - 4 * c->faces_len;
    uint8_t *file = file_edge - c->room, *answer = answer_edge - sizeof ours;
    const uint8_t *before = pattern + any(SLACK), *rest = before + BEFORE;
    memcpy(points, c->points, 4 * c->points_len);
    memcpy(faces, c->faces, 4 * c->faces_len);
    memcpy(file - BEFORE, before, BEFORE + c->room);
    memset(answer, 0xa5, sizeof ours);
    hjoltravan_write_scan(c->unit, (const void *)points, c->points_len, (const void *)faces, c->faces_len, file,
                          c->room, (void *)answer);
    memcpy(ours, answer, sizeof ours);

    s.length = 0;
    refuse_again(c, theirs);
    if (!theirs[NUMBER]) {
        write_again(&s, c);
        theirs[WRITTEN] = (uint32_t)s.length;
    }
    answers[theirs[NUMBER]]++;
    if (memcmp(ours, theirs, sizeof ours))
        tell_answer(c, ours, theirs);
    else if (!same_file(c, file, &s, rest))
        tell_byte(c, file, &s, rest);
    else if (memcmp(file - BEFORE, before, BEFORE))
        tell(c, "a byte before the buffer was changed");
    else if (memcmp(points, c->points, 4 * c->points_len) || memcmp(faces, c->faces, 4 * c->faces_len))
        tell(c, "the points or the faces were changed");
    else if (!theirs[NUMBER] && !read_back(file, ours[WRITTEN], c))
        tell(c, "reading back gives another unit, other points or other faces");
}

/* A call with any points and faces of these lengths. */
static void call(uint32_t unit, size_t points_len, size_t faces_len, size_t room)
{
    const uint32_t *points = all_points + any((uint32_t)(FAR_POINTS + SLACK - points_len));
    const uint32_t *faces = all_faces + any((uint32_t)(FAR_FACES + SLACK - faces_len));
    struct call c = {unit, points, faces, points_len, faces_len, room};
    compare(&c);
}

/* How many bytes a file of these lists takes, or would take without what is left over. */
static size_t whole(size_t points_len, size_t faces_len)
{
    return 30 + 12 * (points_len / 3) + 12 * (faces_len / 3);
}

/* ---- The cases ---- */

#define COUNT(list) (sizeof(list) / sizeof *(list))

/* One point and one face in unit 2, with the bytes written out by hand, and with 0 to 9 spare bytes. */
static void example(void)
{
    static const uint32_t points[] = {0x3f800000, 0x80000000, 0xff812345}; /* 1.0, -0.0 and a NaN */
    static const uint32_t faces[] = {7, 4294967295, 0};
    static const uint8_t bytes[] = {
        0x0c, 0, 0, 0, 1, 0, 2, 0, 0, 0, 0, 0, 0, 0, 0, 0, 0, 0,
        0x0c, 0, 0, 0, 2, 0, 0, 0, 0x80, 0x3f, 0, 0, 0, 0x80, 0, 0, 0xc0, 0x7f,
        0x0c, 0, 0, 0, 3, 0, 7, 0, 0, 0, 0xff, 0xff, 0xff, 0xff, 0, 0, 0, 0,
    };
    _Static_assert(sizeof bytes == 54, "three records of 18 bytes");
    for (size_t spare = 10; spare-- > 0;) {
        struct call c = {2, points, faces, 3, 3, sizeof bytes + spare};
        compare(&c);
        if (memcmp(file_edge - c.room, bytes, sizeof bytes))
            tell(&c, "the bytes aren't those written out by hand");
    }
}

/* Every number of points and faces up to one too many, with a buffer that is just long enough. */
static void every_size(void)
{
    for (size_t v = 0; v <= 129; v++)
        for (size_t f = 0; f <= 257; f++)
            call(1 + any(2), 3 * v, 3 * f, 30 + 12 * v + 12 * f);
}

/* The sizes about the limits, with buffers empty, one byte short, just long enough, and longer. */
static void every_edge(void)
{
    static const size_t vs[] = {0, 1, 2, 3, 63, 64, 65, 126, 127, 128, 129, 130};
    static const size_t fs[] = {0, 1, 2, 3, 127, 128, 129, 254, 255, 256, 257, 258};
    for (size_t i = 0; i < COUNT(vs); i++)
        for (size_t j = 0; j < COUNT(fs); j++) {
            size_t exact = 30 + 12 * vs[i] + 12 * fs[j];
            const size_t rooms[] = {0, exact - 1, exact, exact + 1, exact + 2 + any(199)};
            for (size_t k = 0; k < COUNT(rooms); k++)
                call(1 + any(2), 3 * vs[i], 3 * fs[j], rooms[k]);
        }
}

/* Every length of the buffer, for a few small meshes. */
static void every_room(void)
{
    static const size_t sizes[][2] = {{0, 0}, {1, 0}, {0, 1}, {1, 1}, {2, 3}, {5, 4}, {4, 9}};
    for (size_t i = 0; i < COUNT(sizes); i++)
        for (size_t room = 0; room <= 30 + 12 * sizes[i][0] + 12 * sizes[i][1] + 3; room++)
            call(1 + any(2), 3 * sizes[i][0], 3 * sizes[i][1], room);
}

/* Lists whose length is no multiple of 3 or too long, with good and bad units and buffers: which number comes first. */
static void every_order(void)
{
    static const size_t points[] = {0, 1, 2, 3, 4, 5, 6, 382, 383, 384, 385, 386, 387, 388, 389, 390};
    static const size_t faces[] = {0, 1, 2, 3, 4, 5, 6, 766, 767, 768, 769, 770, 771, 772, 773, 774};
    for (size_t i = 0; i < COUNT(points); i++)
        for (size_t j = 0; j < COUNT(faces); j++)
            for (uint32_t unit = 0; unit < 4; unit++) {
                size_t exact = whole(points[i], faces[j]);
                call(unit, points[i], faces[j], 0);
                call(unit, points[i], faces[j], exact - 1);
                call(unit, points[i], faces[j], exact);
                call(unit, points[i], faces[j], exact + 40);
            }
}

/* Lists far longer than the limits. */
static void far_too_many(void)
{
    static const size_t points[] = {6, 3 * 65538, FAR_POINTS, FAR_POINTS + 1};
    static const size_t faces[] = {6, 3 * 65538, FAR_FACES, FAR_FACES + 2};
    for (size_t i = 0; i < COUNT(points); i++)
        for (size_t j = 0; j < COUNT(faces); j++)
            for (uint32_t unit = 2; unit < 4; unit++) {
                call(unit, points[i], faces[j], 0);
                call(unit, points[i], faces[j], whole(points[i], faces[j]));
            }
}

/* Units good and bad, among them those that are good in their low two bytes. */
static void every_unit(void)
{
    static const uint32_t units[] = {0,       1,       2,          3,          255,        256,        257,
                                     65535,   65536,   65537,      65538,      0x10001,    0x20000,    0x20001,
                                     0x20002, 0x10000, 0x01000000, 0x02000000, 0x80000001, 0xfffffffe, 0xffffffff};
    for (size_t i = 0; i < COUNT(units); i++)
        for (size_t spare = 0; spare < 3; spare++)
            call(units[i], 6, 3, 66 + spare);
    for (int i = 0; i < 1000; i++)
        call(any_word(), 6, 3, 66);
}

/* A number of points or faces: mostly few, at times about the limit, at times any. */
static size_t any_count(uint32_t limit)
{
    switch (any(8)) {
    case 0:
        return limit - 2 + any(4);
    case 1:
        return any(limit + 20);
    default:
        return any(9);
    }
}

/* A call where each thing may be bad: the lists' lengths, the unit, the buffer. */
static void any_call(void)
{
    size_t points_len = 3 * any_count(128), faces_len = 3 * any_count(256);
    uint32_t unit = any(8) ? 1 + any(2) : any(2) ? any(5) : any_word();
    if (!any(8))
        points_len += any(3);
    if (!any(8))
        faces_len += any(3);
    size_t exact = whole(points_len, faces_len);
    const size_t rooms[] = {exact, exact - 1 - any(12), any((uint32_t)exact), exact + any(13), exact + any(200), exact};
    call(unit, points_len, faces_len, rooms[any(COUNT(rooms))]);
}

/* ---- The whole ---- */

/* Memory of at least so many bytes. Tells the first byte after it, where a page begins that can't be touched. */
static uint8_t *guarded(size_t bytes)
{
    size_t page = (size_t)sysconf(_SC_PAGESIZE), room = (bytes + page - 1) / page * page;
    uint8_t *memory = mmap(NULL, room + page, PROT_READ | PROT_WRITE, MAP_PRIVATE | MAP_ANONYMOUS, -1, 0);
    if (memory == MAP_FAILED || mprotect(memory + room, page, PROT_NONE)) {
        printf("writer: no memory\n");
        exit(2);
    }
    return memory + room;
}

int main(void)
{
    points_edge = guarded(4 * (FAR_POINTS + SLACK));
    faces_edge = guarded(4 * (FAR_FACES + SLACK));
    file_edge = guarded(BEFORE + FAR_FILE + SLACK);
    answer_edge = guarded(CELLS * sizeof(uint32_t));
    fill();

    example();
    every_room();
    every_unit();
    every_order();
    far_too_many();
    every_edge();
    every_size();
    for (int i = 0; i < 20000; i++)
        any_call();

    unsigned long refused = answers[1] + answers[24] + answers[27] + answers[31];
    printf("writer: %lu written, %lu refused (1: %lu, 24: %lu, 27: %lu, 31: %lu); %lu differ\n", answers[0], refused,
           answers[1], answers[24], answers[27], answers[31], differ);
    if (!answers[0] || !answers[1] || !answers[24] || !answers[27] || !answers[31]) {
        printf("writer: one of the answers never came\n");
        return 1;
    }
    return differ != 0;
}
