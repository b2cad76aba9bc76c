/* Damaged files. The proved reader beside a second one, written below from the text of documents 01 and 02 and in another way: it eats a
   stream byte by byte. They are compared on number, place and head. The bytes lie against a page that can't be read. */
#define _GNU_SOURCE
#include <stdbool.h>
#include <stdint.h>
#include <stdio.h>
#include <stdlib.h>
#include <string.h>
#include <sys/mman.h>
#include <unistd.h>

/* 0, or 21 to 27. The cells: unit, preserve, limited, limit, ratio, points, faces, margin, place; the floats as the file has
   them. */
uint32_t tell_scan(const uint8_t *bytes, size_t length, uint32_t cells[9]);

enum { UNIT, PRESERVE, LIMITED, LIMIT, RATIO, POINTS, FACES, MARGIN, PLACE, CELLS, NUMBER = CELLS };
enum { MOST = 5156, ROOM = 8192 };

/* ---- The second reader ---- */

struct stream {
    const uint8_t *next, *end;
};

/* Eats a little-endian number of so many bytes, or says that they aren't there. */
static bool eat(struct stream *s, int bytes, uint64_t *number)
{
    if (s->end - s->next < bytes)
        return false;
    *number = 0;
    for (int i = bytes; i-- > 0;)
        *number = *number * 256 + s->next[i];
    s->next += bytes;
    return true;
}

/* "unit u16 (1 millimetre, 2 micrometre), flags u16 (bit 0 preserve, bit 1 limit present), ratio f32, limit f32 (not looked at
   without bit 1)" */
static uint32_t eat_options(struct stream *s, uint32_t answer[])
{
    uint64_t unit, flags, ratio, limit;
    if (!eat(s, 2, &unit) || !eat(s, 2, &flags) || !eat(s, 4, &ratio) || !eat(s, 4, &limit))
        abort();
    switch (unit) {
    case 1:
    case 2:
        break;
    default:
        return 24;
    }
    if (flags & ~UINT64_C(3))
        return 26;
    answer[UNIT] = (uint32_t)unit;
    answer[PRESERVE] = flags & 1;
    answer[LIMITED] = flags >> 1;
    answer[LIMIT] = flags & 2 ? (uint32_t)limit : 0;
    answer[RATIO] = (uint32_t)ratio;
    return 0;
}

/* One record: "21 head cut short or absent; 22 wrong kind; 23 kind 1 not 12 long, or another no multiple of 12; 27 too many points
   or faces; 21 payload cut short; for kind 1 then 24 unit, 26 other flag bits"; "23 if kind 4 is no multiple of 4; 27 if it names more
   than 128; 21 if its payload is cut short" */
static uint32_t eat_record(struct stream *s, unsigned wanted, uint32_t answer[])
{
    uint64_t length, kind;
    if (!eat(s, 4, &length) || !eat(s, 2, &kind))
        return 21;
    if (kind != wanted)
        return 22;
    static const unsigned each[] = {0, 12, 12, 12, 4}, most[] = {0, 1, 128, 256, 128}, cell[] = {0, 0, POINTS, FACES, MARGIN};
    uint64_t items = length / each[wanted];
    if (wanted == 1 ? length != 12 : items * each[wanted] != length)
        return 23;
    if (items > most[wanted])
        return 27;
    if ((uint64_t)(s->end - s->next) < length)
        return 21;
    if (wanted == 1)
        return eat_options(s, answer);
    answer[cell[wanted]] = (uint32_t)items;
    s->next += length;
    return 0;
}

/* "A tail without a whole kind 4 head, and anything after kind 4, stays 25." */
static uint32_t eat_tail(struct stream *s, const uint8_t **start, uint32_t answer[])
{
    struct stream ahead = *s;
    uint64_t length, kind;
    *start = s->next;
    if (eat(&ahead, 4, &length) && eat(&ahead, 2, &kind) && kind == 4) {
        uint32_t number = eat_record(s, 4, answer);
        if (number)
            return number;
        *start = s->next;
    }
    return s->next == s->end ? 0 : 25;
}

/* "In that order, once each. After the third: 25 spare bytes. Place is the record's offset; for 25 the first spare byte." */
static void read_again(const uint8_t *bytes, size_t length, uint32_t answer[CELLS + 1])
{
    struct stream s = {bytes, bytes + length};
    const uint8_t *start = bytes;
    uint32_t number = 0;
    memset(answer, 0, (CELLS + 1) * sizeof *answer);
    for (unsigned wanted = 1; wanted <= 3 && !number; wanted++) {
        start = s.next;
        number = eat_record(&s, wanted, answer);
    }
    if (!number)
        number = eat_tail(&s, &start, answer);
    if (number) {
        memset(answer, 0, CELLS * sizeof *answer);
        answer[PLACE] = (uint32_t)(start - bytes);
        answer[NUMBER] = number;
    }
}

/* ---- Both readers on one file ---- */

static uint8_t *edge; /* the first byte that can't be read */
static unsigned long answers[28], differ;

static void compare(const uint8_t *file, size_t length)
{
    uint32_t ours[CELLS + 1], theirs[CELLS + 1];
    uint8_t *bytes = edge - length;
    memcpy(bytes, file, length);
    memset(ours, 0xa5, sizeof ours);
    ours[NUMBER] = tell_scan(bytes, length, ours);
    read_again(bytes, length, theirs);
    if (memcmp(ours, theirs, sizeof ours) || memcmp(bytes, file, length)) {
        if (!differ++)
            printf("damaged files: %zu bytes: %u place %u, expected %u place %u\n", length, ours[NUMBER], ours[PLACE],
                   theirs[NUMBER], theirs[PLACE]);
    }
    answers[theirs[NUMBER] < 28 ? theirs[NUMBER] : 0]++;
}

/* ---- Files ---- */

/* xorshift64*: the same numbers in every run */
static uint64_t state = 0x9e3779b97f4a7c15u;

static uint32_t any(uint32_t below)
{
    state ^= state >> 12;
    state ^= state << 25;
    state ^= state >> 27;
    return (uint32_t)((state * 0x2545f4914f6cdd1du) >> 32) % below;
}

static void put(uint8_t *at, int bytes, uint32_t number)
{
    for (int i = 0; i < bytes; i++)
        at[i] = (uint8_t)(number >> 8 * i);
}

static size_t put_head(uint8_t *file, size_t at, uint32_t length, uint32_t kind)
{
    put(file + at, 4, length);
    put(file + at + 4, 2, kind);
    return at + 6;
}

/* A record of so many bytes, any of them. */
static size_t put_record(uint8_t *file, size_t at, uint32_t length, uint32_t kind)
{
    at = put_head(file, at, length, kind);
    for (size_t end = at + length; at < end; at++)
        file[at] = (uint8_t)any(256);
    return at;
}

/* A good file of v points and f faces, with any bytes in them. */
static size_t good_file(uint8_t *file, uint32_t v, uint32_t f)
{
    size_t at = put_record(file, 0, 12, 1);
    put(file + 6, 2, 1 + any(2));
    put(file + 8, 2, any(4));
    at = put_record(file, at, 12 * v, 2);
    return put_record(file, at, 12 * f, 3);
}

/* The same with a margin of m points. */
static size_t margin_file(uint8_t *file, uint32_t v, uint32_t f, uint32_t m)
{
    return put_record(file, good_file(file, v, f), 4 * m, 4);
}

/* The example square of document 01. */
static size_t square_file(uint8_t *file)
{
    static const float points[] = {0, 0, 0, 2, 0, 0, 2, 2, 0, 0, 2, 0, 1, 1, 0};
    static const uint32_t faces[] = {0, 1, 4, 1, 2, 4, 2, 3, 4, 3, 0, 4};
    static const float ratio = 0.5f;
    memset(file, 0, 24);
    size_t at = put_head(file, 0, 12, 1);
    put(file + at, 2, 1);
    memcpy(file + at + 4, &ratio, 4);
    at = put_head(file, at + 12, sizeof points, 2);
    memcpy(file + at, points, sizeof points);
    at = put_head(file, at + sizeof points, sizeof faces, 3);
    memcpy(file + at, faces, sizeof faces);
    return at + sizeof faces;
}

/* ---- The damage ---- */

static void every_prefix(const uint8_t *file, size_t length)
{
    for (size_t n = 0; n <= length; n++)
        compare(file, n);
}

static void every_byte(uint8_t *file, size_t length)
{
    for (size_t at = 0; at < length; at++) {
        uint8_t was = file[at];
        for (int other = 1; other < 256; other++) {
            file[at] = (uint8_t)(was + other);
            compare(file, length);
        }
        file[at] = was;
    }
}

/* Payload lengths whose sum with an offset is near 2^32 or past it, and those about the limits, in each record. */
static void every_length(uint8_t *file, size_t length, size_t third, size_t fourth)
{
    const size_t heads[] = {0, 18, third, fourth};
    for (int k = 0; k < 4; k++) {
        uint8_t was[4];
        memcpy(was, file + heads[k], 4);
        for (uint32_t n = 0; n < 6000; n++) {
            put(file + heads[k], 4, n);
            compare(file, length);
            put(file + heads[k], 4, 0u - n);
            compare(file, length);
            put(file + heads[k], 4, 0x80000000u - n);
            compare(file, length);
        }
        memcpy(file + heads[k], was, 4);
    }
}

static void any_bytes(uint8_t *file)
{
    size_t length = any(201);
    for (size_t i = 0; i < length; i++)
        file[i] = (uint8_t)any(256);
    compare(file, length);
}

/* So many bytes more. */
static size_t longer(uint8_t *file, size_t length, uint32_t more)
{
    for (; more-- > 0 && length < ROOM;)
        file[length++] = (uint8_t)any(256);
    return length;
}

/* Good records of kinds 1 to 3, and a tail: a record, mostly of kind 4, whole, cut, or with bytes or another kind 4 after it. */
static void any_tail(uint8_t *file)
{
    size_t end = good_file(file, any(5), any(5));
    uint32_t size = any(4) ? 4 * any(132) : any(530);
    size_t length = put_record(file, end, size, any(4) ? 4 : any(8));
    switch (any(4)) {
    case 0:
        length = end + any((uint32_t)(length - end));
        break;
    case 1:
        length = longer(file, length, 1 + any(20));
        break;
    case 2:
        length = put_record(file, length, 4 * any(3), 4);
        break;
    default:
        break;
    }
    compare(file, length);
}

/* A good file with a margin or without, and up to three changes: a byte, a record's length, its end cut off, or bytes added. */
static void any_damage(uint8_t *file)
{
    uint32_t v = any(8) ? any(8) : any(129), f = any(8) ? any(8) : any(257), m = any(8) ? any(8) : any(129);
    size_t third = 24 + 12 * v, fourth = third + 6 + 12 * f;
    uint32_t records = 3 + any(2);
    size_t length = records == 4 ? margin_file(file, v, f, m) : good_file(file, v, f);
    for (uint32_t changes = any(4); changes-- > 0;) {
        const size_t heads[] = {0, 18, third, fourth};
        size_t head = heads[any(records)];
        switch (any(5)) {
        case 0:
            if (length)
                file[any((uint32_t)length)] ^= (uint8_t)(1 + any(255));
            break;
        case 1:
            put(file + head, 4, (any(2) ? 12 : 4) * any(260));
            break;
        case 2:
            file[head + any(18)] = (uint8_t)any(5);
            break;
        case 3:
            length = any((uint32_t)length + 1);
            break;
        default:
            length = longer(file, length, 1 + any(20));
        }
    }
    compare(file, length);
}

int main(void)
{
    static uint8_t file[ROOM + 64];
    size_t page = (size_t)sysconf(_SC_PAGESIZE), room = (ROOM + page - 1) / page * page;
    uint8_t *memory = mmap(NULL, room + page, PROT_READ | PROT_WRITE, MAP_PRIVATE | MAP_ANONYMOUS, -1, 0);
    if (memory == MAP_FAILED || mprotect(memory + room, page, PROT_NONE)) {
        printf("damaged files: no memory\n");
        return 2;
    }
    edge = memory + room;

    size_t length = square_file(file);
    every_prefix(file, length);
    every_byte(file, length);
    /* points 0 and 2 as its margin */
    size_t fourth = length;
    length = put_head(file, length, 8, 4) + 8;
    put(file + length - 8, 4, 0);
    put(file + length - 4, 4, 2);
    every_prefix(file, length);
    every_byte(file, length);
    every_length(file, length, 84, fourth);

    length = margin_file(file, 128, 256, 128);
    if (length != MOST)
        return 2;
    every_length(file, length, 24 + 12 * 128, 30 + 12 * 128 + 12 * 256);
    memset(file + length, 0, ROOM - length);
    every_prefix(file, length + 1000);
    for (uint32_t v = 126; v <= 130; v++)
        for (uint32_t f = 254; f <= 258; f++) {
            compare(file, good_file(file, v, f));
            for (uint32_t m = 126; m <= 130; m++)
                compare(file, margin_file(file, v, f, m));
        }

    for (int i = 0; i < 100000; i++)
        any_bytes(file);
    for (int i = 0; i < 100000; i++)
        any_tail(file);
    for (int i = 0; i < 100000; i++)
        any_damage(file);

    unsigned long all = answers[0];
    for (int n = 21; n <= 27; n++)
        all += answers[n];
    printf("damaged files: %lu read, %lu good", all, answers[0]);
    for (int n = 21; n <= 27; n++)
        printf(", %d: %lu", n, answers[n]);
    printf("; %lu differ\n", differ);
    return differ != 0;
}
