/* Hjoltravan: thins a triangle mesh, and writes one as a scan file. Every answer is proved to be the one that the statement
   in crates/meaning/specs/Call.antt gives (of many orders, the one in crates/hjoltravan/specs/Orders.antt, and of the writer,
   the one in crates/scanwriter/specs/Written.antt), for any input.
   No allocation, no global state, no errno. */
#ifndef HJOLTRAVAN_H
#define HJOLTRAVAN_H

#include <stdbool.h>
#include <stddef.h>
#include <stdint.h>

#ifdef __cplusplus
extern "C" {
#endif

/* The most points and faces of a mesh. */
#define HJOLTRAVAN_MOST_POINTS 65536
#define HJOLTRAVAN_MOST_FACES 131072

/* The units. Each has its bound on a coordinate's size: 1,024 in millimetres, 1,048,576 in micrometres. */
#define HJOLTRAVAN_MILLIMETRE 1
#define HJOLTRAVAN_MICROMETRE 2

/* How much memory to lend for V points and F faces, in elements. Longer is fine; the rest is never written. */
#define HJOLTRAVAN_OUT_POINTS(V, F) (3 * (size_t)(V))
#define HJOLTRAVAN_OUT_FACES(V, F) (3 * (size_t)(F))
#define HJOLTRAVAN_FOLDS(V, F) (2 * (size_t)(F))
#define HJOLTRAVAN_WORK_U32(V, F) (16 * (size_t)(V) + 32 * (size_t)(F))
#define HJOLTRAVAN_WORK_F32(V, F) (4 * (size_t)(V) + 12 * (size_t)(F))
#define HJOLTRAVAN_WORK_F64(V, F) (16 * (size_t)(V) + 6 * (size_t)(F))

/* Thins a mesh, by a queue.

   points, points_len   x, y, z of each point, 3V floats
   faces, faces_len     the three point numbers of each triangle, from 0, 3F numbers
   margin, margin_len   the numbers of the points that must not move, from 0, each above the one before; where there are
                        none the length is 0 and the pointer may be NULL
   unit                 what the coordinates are in: 1 millimetre, 2 micrometre
   ratio                how much to take away: 0 nothing (the mesh is copied), 1 as much as can be
   preserve             whether points on an open border stay as they are
   limited, limit       whether only pairs of points at most this far apart may be joined; limit isn't looked at without it
   out_points           at least HJOLTRAVAN_OUT_POINTS floats
   out_faces            at least HJOLTRAVAN_OUT_FACES numbers
   work_u32, work_f32, work_f64   at least the stated lengths; what they hold at the call doesn't matter
   answer               number, place, points out, faces out, folds made
   closed               how many pairs of points were tried and not joined, by the reason: they aren't linked (the faces that
                        hold both are none, or not as many as their common neighbours); the join would squash a face; it would
                        turn one over. Of several reasons the first counts: not linked; then the lowest face that would be
                        harmed, and of that face squashed before turned over

   Lengths count elements, not bytes. None of the seven lent parts that are written (the two outputs, the three
   work memories, answer and closed) may overlap another part, the inputs included. The inputs may share memory.

   The numbers, in the order they are checked:
    1  the length of points or faces is no multiple of 3
    2  more than 65,536 points or 131,072 faces
    3  an output or work memory is too short
    4  no points or no faces
    5  the ratio is NaN, below 0 or above 1
    6  the limit is NaN
   24  the unit is neither 1 nor 2
    7  a coordinate isn't finite or its size is above the unit's bound (1,024 in unit 1, 1,048,576 in unit 2); place: the
       first such coordinate's number
    8  a face names a point that there isn't; place: that face
    9  a face names one point twice; place: that face (the lowest bad face counts, and within it 8 comes first)
   12  the margin names a point that there isn't, or a point not above the one before; place: the first such entry
   10  nothing could be joined, and there are fixed points: margin points, in a face or not, and with preserve border
       points; place: how many there are, each counted once
   11  nothing could be joined, and no point is fixed
    0  done: the thinned mesh is in the first 3 * points out floats and 3 * faces out numbers of the outputs

   At ratio 0 neither faces nor margin are looked at (8, 9 and 12). A fixed point isn't moved or joined to another, and no
   other to it: where the thinned mesh still uses it, it has the bits it came with.

   On 1 to 9, 12 and 24 and at ratio 0 closed is all zero. On 10 and 11 it says why nothing could be joined: its sum is the
   number of all pairs that there were to try.

   A refusal (any number but 0) changes neither output. Work memory is untouched on 1 to 9, 12 and 24, and its stated part
   is all zero after 0, 10 and 11. */
void hjoltravan_thin(const float *points, size_t points_len, const uint32_t *faces, size_t faces_len,
                     const uint32_t *margin, size_t margin_len,
                     uint32_t unit, float ratio, bool preserve, bool limited, float limit,
                     float *out_points, size_t out_points_len, uint32_t *out_faces, size_t out_faces_len,
                     uint32_t *work_u32, size_t work_u32_len, float *work_f32, size_t work_f32_len,
                     double *work_f64, size_t work_f64_len, uint32_t answer[5], uint64_t closed[3]);

/* The same by the plain walk, which works every cost out anew at each step: the meaning of the one above, and slow. */
void hjoltravan_thin_plain(const float *points, size_t points_len, const uint32_t *faces, size_t faces_len,
                           const uint32_t *margin, size_t margin_len,
                           uint32_t unit, float ratio, bool preserve, bool limited, float limit,
                           float *out_points, size_t out_points_len, uint32_t *out_faces, size_t out_faces_len,
                           uint32_t *work_u32, size_t work_u32_len, float *work_f32, size_t work_f32_len,
                           double *work_f64, size_t work_f64_len, uint32_t answer[5], uint64_t closed[3]);

/* The same as hjoltravan_thin, with a list of the joins made.

   folds, folds_len     any length; HJOLTRAVAN_FOLDS numbers are always enough

   Each join (fold) is two numbers, in the order in which they were made: the point of the input that stays, and the point
   that is joined to it. As many numbers are written as there is room for, at most twice the folds made; the rest is never
   written, and on a refusal nothing is. Like the other lent parts folds may not overlap any other part. */
void hjoltravan_thin_folds(const float *points, size_t points_len, const uint32_t *faces, size_t faces_len,
                           const uint32_t *margin, size_t margin_len,
                           uint32_t unit, float ratio, bool preserve, bool limited, float limit,
                           float *out_points, size_t out_points_len, uint32_t *out_faces, size_t out_faces_len,
                           uint32_t *work_u32, size_t work_u32_len, float *work_f32, size_t work_f32_len,
                           double *work_f64, size_t work_f64_len, uint32_t *folds, size_t folds_len, uint32_t answer[5],
                           uint64_t closed[3]);

/* The most orders of a call. */
#define HJOLTRAVAN_MOST_ORDERS 64

/* Where some cells lie in a buffer: the first of them, from 0, and how many, in elements. */
typedef struct {
    size_t from;
    size_t len;
} hjoltravan_part;

/* One order of hjoltravan_thin_orders: where its points, its faces and its margin lie in the shared inputs; its options, as in
   hjoltravan_thin; and its own parts of the two outputs. */
typedef struct {
    hjoltravan_part points;
    hjoltravan_part faces;
    hjoltravan_part margin;
    uint32_t unit;
    float ratio;
    bool preserve;
    bool limited;
    float limit;
    hjoltravan_part out_points;
    hjoltravan_part out_faces;
} hjoltravan_order;

/* How many numbers the lists of answers need for N orders. */
#define HJOLTRAVAN_ANSWERS(N) (5 * (size_t)(N))
#define HJOLTRAVAN_CLOSED(N) (3 * (size_t)(N))

/* Thins many orders over one work memory, one after another, each as hjoltravan_thin would alone with its parts as its buffers.

   orders, orders_len   at most 64; none is fine
   points, faces, margins   the shared inputs. The parts of several orders, of one too, may share cells
   out_points, out_faces    the outputs. Each order has parts of its own in them, HJOLTRAVAN_OUT_POINTS and HJOLTRAVAN_OUT_FACES
                            long or longer
   work_u32, work_f32, work_f64   long enough for the largest order; an order for which they are too short gets 3
   answers              at least HJOLTRAVAN_ANSWERS numbers: number, place, points out, faces out and folds made of each order, in
                        their order
   closed               at least HJOLTRAVAN_CLOSED numbers: the pairs not joined by reason, likewise

   Returns 0, or 41 for the whole call, and then nothing at all is written:
    - there are more than 64 orders,
    - answers or closed is shorter than the orders,
    - a part of an order lies outside its buffer (its first cell plus its length is more than the buffer's length),
    - two orders have a cell of out_points in common, or one of out_faces. A part with no cells shares none.

   All else is answered order by order, with the numbers of hjoltravan_thin, and an order that is refused doesn't stop the rest.
   Changing another order changes nothing of an order's answer and output, so long as neither call gets 41 and the order's own
   input parts hold what they held.

   Outside the orders' parts the outputs stay as they came, and so do answers and closed after the last order. Afterwards the
   work memory is zero up to the longest stated part of an order that got 0, 10 or 11, and as it came from there on.

   None of the seven lent buffers that are written (the two outputs, the three work memories, answers and closed) may
   overlap another buffer or the list of orders. */
uint32_t hjoltravan_thin_orders(const hjoltravan_order *orders, size_t orders_len, const float *points, size_t points_len,
                                const uint32_t *faces, size_t faces_len, const uint32_t *margins, size_t margins_len,
                                float *out_points, size_t out_points_len, uint32_t *out_faces, size_t out_faces_len,
                                uint32_t *work_u32, size_t work_u32_len, float *work_f32, size_t work_f32_len,
                                double *work_f64, size_t work_f64_len, uint32_t *answers, size_t answers_len,
                                uint64_t *closed, size_t closed_len);

/* The most points and faces of a scan file, and how many bytes one takes. */
#define HJOLTRAVAN_FILE_MOST_POINTS 128
#define HJOLTRAVAN_FILE_MOST_FACES 256
#define HJOLTRAVAN_FILE_BYTES(V, F) (30 + 12 * (size_t)(V) + 12 * (size_t)(F))

/* Writes a mesh and its unit as a scan file, which the program thin reads: the unit, no flags, ratio and limit 0, the points,
   the faces.

   unit                 1 millimetre, 2 micrometre
   points, points_len   x, y, z of each point; written by their bits, a NaN as 7fc00000
   faces, faces_len     the three point numbers of each triangle, any numbers
   file, file_len       at least HJOLTRAVAN_FILE_BYTES bytes; those past the file's end are never written
   answer               number, place, bytes written (0 on a refusal)

   The mesh isn't looked at: whether its faces name points that there are is for hjoltravan_thin. file and answer may not
   overlap another part, the inputs included.

   The numbers, in the order they are checked (a refusal leaves file as it came):
    1  a list's length is no multiple of 3
   24  the unit is neither 1 nor 2
   27  more than 128 points (place: 18), or else more than 256 faces (place: 24 + 12V); the place is the offset that their
       record would have in the file
   31  file is too short
    0  done */
void hjoltravan_write_scan(uint32_t unit, const float *points, size_t points_len, const uint32_t *faces, size_t faces_len,
                           uint8_t *file, size_t file_len, uint32_t answer[3]);

/* The leaves, on bit patterns: the square root of an f32, an f64 rounded to f32, and the signed key of an f64
   whose order is IEEE 754-2019 totalOrder. */
uint32_t hjoltravan_root(uint32_t bits);
uint32_t hjoltravan_narrow(uint64_t bits);
int64_t hjoltravan_order_key(uint64_t bits);

#ifdef __cplusplus
}
#endif

#endif
