/*
 * The proved basin core (document 01, and requests U1, U2, U3 and U5 of document
 * 02), for C and C++ on x86-64. Link target/staticlib/libbasin.a, which
 * `install/build basin` writes: the step of a state and runs of it, totals,
 * potential vorticity and tendencies, these in double precision too, the record
 * of a state (writer, reader, comparison), and rounding. `./forecast install
 * PREFIX` puts it, and a shared library of the same functions, into PREFIX/lib.
 *
 * Every function takes any numbers and any lengths, and always returns. A
 * field or a record is lent as a pointer and the number of its elements. A
 * place for a result is a pointer alone, to 1, 3 or 8 numbers as declared. What
 * is asked of a caller:
 * - each pointer is valid and aligned for the length after it, or for the
 *   numbers declared. Where a length is 0 nothing is read or written there, and
 *   any aligned pointer but a null pointer will do: of that one nothing is
 *   promised;
 * - what a function writes (every pointer that is not to const) overlaps
 *   nothing else lent to it. What is only read may overlap.
 *
 * Threads. Calls share nothing and keep nothing from one call to the next. They
 * may be made from any number of threads at once, as long as what one call
 * writes is not lent to another at the same time.
 *
 * A state is w columns by n rows, the kind of its boundary, the constants g, c
 * and r, the fields h, b, u and v, which have a number for each cell, and the
 * barriers, which have a byte for each. kind is a byte, as in a record: a
 * larger number is cut to its lowest byte by the caller's own compiler, before
 * the call, so that 256 is taken as kind 0. Column i of row j is cell j*w + i.
 * The edges u(0,j) are closed for kind 2, the edges v(i,0) for kinds 1 and 2;
 * kind 0 closes none.
 *
 * Corners. Potential vorticity q has a number for each corner of the grid, row by
 * row from the southwest, BASIN_CORNERS(w, n, kind) in all. Kind 0 has w by n
 * corners. A walled side has its own: kind 1 has w by n + 1, kind 2 has w + 1 by
 * n + 1. The cell in column i of row j has those in columns i and i + 1 of rows j
 * and j + 1, where the one past the last is the first: only where there is no
 * wall. Barriers make no wall.
 *
 * Barriers (02: piers). They close edges inside the grid. A cell's byte is 0
 * for none, 1 for its west edge, the one of u, 2 for its south edge, the one of
 * v, or 3 for both. An edge that a barrier closes is as one that the boundary
 * closes: the velocity there must be 0 and stays 0. It may be closed by both.
 * Without barriers, lend w*n zeros.
 *
 * Answers. A call on a state or a record returns the number of its refusal, 0
 * for none. Every call sets all eight numbers of answer: answer[0] is the number
 * returned, the values that belong to it follow, and the other places are 0. A
 * refused call leaves everything else that was lent to it untouched, with two
 * exceptions: the work space (below), and the state of a run that 6 stops,
 * which is left as it is after the steps done.
 *
 * Work space. A step or run is lent work, of at least 8*w*n numbers, whatever
 * they are. After refusals 1 and 2 it is untouched. Otherwise, refused or not,
 * its first 8*w*n numbers are 0 after the call and the rest are untouched.
 *
 * Timestamp. The moment of a state: whole seconds since 2000-01-01 00:00, any
 * number of 64 bits, and milliseconds past them, 0 to 999. The milliseconds are
 * a number of 64 bits too, so that 65,536 is refused and not cut to 0. Of two
 * moments the later one has the greater second, or in one second the greater
 * millisecond.
 *
 * Record. A row of nine fields, each a tag of one byte, the length of its value
 * in two, and the value; numbers are big-endian, negative ones in two's
 * complement. Tag 1 holds w, n and kind, a byte each; 2 holds g, c and r, four
 * bytes each; 3 the seconds of the timestamp, eight bytes without a sign; 4 and
 * 5 hold h and b, four bytes a cell; 6 and 7 hold u and v, two bytes a cell; 8
 * the milliseconds, two bytes without a sign; 9 the barriers, a byte a cell.
 * Each tag occurs once. That is 52 + 13*w*n bytes. A record that is read may
 * lack tag 8: its milliseconds are 0 then. It may lack tag 9: its barriers are
 * all 0 then. (A tag 9 with no bytes is there, and has too few.)
 *
 * Refusals. The causes are tested in this order and the first is told; but 9 is
 * tested straight after 3, and a record that is read is tested in the order 7,
 * 1, 2, 8, 3, 9, 4, 5:
 *
 *   number  cause                                             values after it
 *   0       none                                              (see the calls)
 *   1       w or n not 1 to 64; kind not 0, 1 or 2;
 *           steps above 10,000
 *   2       a field to be read or stepped, or the barriers,
 *           does not have w*n numbers (in a record, the
 *           bytes of these), q not one for each corner;
 *           work_len below 8*w*n
 *   3       g not 1 to 10,000; c not -10,000 to 10,000;
 *           r not 1,000 to 1,000,000
 *   4       a number outside its bounds, by field: h, b, u,   field, cell
 *           v, barriers, then q or inflow; lowest cell first  (of q: corner)
 *   5       a velocity other than 0 on a closed edge, u       field, cell
 *           before v, lowest cell first
 *   6       a pass of the step, 1 or 2, leaves the bounds     pass, field, cell
 *           of h, u or v, in this order, lowest cell first    (a run: steps too)
 *   7       a damaged record. At each tag in turn: 1 or 2     offset of the
 *           bytes left, an unknown tag, a repeated tag, a     tag; length of
 *           value past the end, tag 1, 2, 3 or 8 of a wrong   the record where
 *           length; then a tag of 1 to 7 that is missing      one is missing
 *   8       a field to be filled has fewer than w*n places, q
 *           fewer than there are corners;
 *           record_len below 52 + 13*w*n, to be written
 *   9       milliseconds above 999 (write, read, compare)
 *   10      a probed cell outside the grid
 *
 *   field   bounds
 *   0       h         depth, 1,000 to 100,000 mm
 *   1       b         bottom height, 0 to 100,000 mm
 *   2       u         velocity at west edges, -5,000 to 5,000 mm/s
 *   3       v         velocity at south edges, -5,000 to 5,000 mm/s
 *   4       q         potential vorticity, -2,000,000 to 2,000,000
 *   5       inflow    -1,000 to 1,000 mm a step
 *   6       barriers  0 to 3
 */
#ifndef BASIN_H
#define BASIN_H

#include <stddef.h>
#include <stdint.h>

#ifdef __cplusplus
extern "C" {
#endif

/*
 * The version of this header: 10,000 times major, 100 times minor, and patch.
 * basin_version() returns that of the library. A caller that finds two numbers
 * has a header and a library that do not belong together.
 */
#define BASIN_VERSION 800
uint64_t basin_version(void);

/* The refusals: what a call returns, and answer[0]. */
enum basin_refusal {
    BASIN_ACCEPTED = 0,
    BASIN_REFUSED_GRID = 1,
    BASIN_REFUSED_LENGTHS = 2,
    BASIN_REFUSED_CONSTANTS = 3,
    BASIN_REFUSED_VALUE = 4,
    BASIN_REFUSED_CLOSED_EDGE = 5,
    BASIN_REFUSED_OUT_OF_BOUNDS = 6,
    BASIN_REFUSED_RECORD = 7,
    BASIN_REFUSED_DESTINATION = 8,
    BASIN_REFUSED_MILLISECONDS = 9,
    BASIN_REFUSED_NO_SUCH_CELL = 10
};

/* The kinds of boundary. */
enum basin_kind {
    BASIN_KIND_PERIODIC = 0,
    BASIN_KIND_CHANNEL = 1,
    BASIN_KIND_BASIN = 2
};

/* The fields that refusals 4, 5 and 6 name. */
enum basin_field {
    BASIN_FIELD_DEPTH = 0,
    BASIN_FIELD_BOTTOM = 1,
    BASIN_FIELD_U = 2,
    BASIN_FIELD_V = 3,
    BASIN_FIELD_VORTICITY = 4,
    BASIN_FIELD_INFLOW = 5,
    BASIN_FIELD_BARRIERS = 6
};

/* The edges of a cell that a barrier closes. For both, add them: 3. */
enum basin_barrier {
    BASIN_BARRIER_NONE = 0,
    BASIN_BARRIER_WEST = 1,
    BASIN_BARRIER_SOUTH = 2
};

/* How far to trust doubles: answer[1] of basin_probe and basin_probe_grid. */
enum basin_trust {
    BASIN_EXACT = 0,
    BASIN_NEAR = 1
};

/* What two records are to each other: answer[1] of basin_compare. */
enum basin_comparison {
    BASIN_SAME = 0,
    BASIN_FIRST_NEWER = 1,
    BASIN_SECOND_NEWER = 2,
    BASIN_CONFLICT = 3
};

/* The most columns or rows of a grid, its most cells, and the longest run. */
#define BASIN_LONGEST_SIDE 64
#define BASIN_MOST_CELLS 4096
#define BASIN_LONGEST_RUN 10000

/*
 * Sizes for a grid of w columns and n rows: the numbers of the work space of a
 * step or run, the bytes of a record, and the corners of a grid of this kind,
 * which are the numbers of q. They are of type size_t, and constant where w, n
 * and kind are. They are right for every grid that is not refused with 1; for
 * sides above 64 they may overflow. No grid has more corners than
 * BASIN_MOST_CORNERS.
 */
#define BASIN_WORK_LEN(w, n) ((size_t)8 * (size_t)(w) * (size_t)(n))
#define BASIN_RECORD_LEN(w, n) \
    ((size_t)52 + (size_t)13 * (size_t)(w) * (size_t)(n))
#define BASIN_CORNERS(w, n, kind) \
    (((size_t)(w) + (size_t)((kind) == BASIN_KIND_BASIN)) * \
     ((size_t)(n) + (size_t)((kind) == BASIN_KIND_BASIN || \
                             (kind) == BASIN_KIND_CHANNEL)))
#define BASIN_MOST_CORNERS 4225

/*
 * a/b rounded to the nearest whole number, halves away from zero.
 *
 * Where a is -2^58 to 2^58 and b is 1 to 2^43: returns 0, and *rounded is the
 * result. Otherwise returns 4 and *rounded is untouched.
 */
uint64_t basin_rnd(int64_t a, int64_t b, int64_t *rounded);

/*
 * Potential vorticity, times spacing times 65,536, at the corners. One on a wall
 * takes c alone, without velocities, over the mean depth of the cells inside: of
 * two, or of one where two walls meet. Barriers do not change it. Tests 1 to 5,
 * then 8 of q. Where none refuses, the first BASIN_CORNERS(w, n, kind) numbers
 * of q are the result and the rest of q is untouched.
 */
uint64_t basin_potential_vorticity(size_t w, size_t n, uint8_t kind,
                                   int64_t g, int64_t c, int64_t r,
                                   const int64_t *h, size_t h_len,
                                   const int64_t *b, size_t b_len,
                                   const int64_t *u, size_t u_len,
                                   const int64_t *v, size_t v_len,
                                   const uint8_t *barriers, size_t barriers_len,
                                   int64_t *q, size_t q_len,
                                   uint64_t answer[8]);

/*
 * Tendencies of a state with a potential vorticity q, which has a number for
 * each corner and may be any within its bounds: of h in dh, the rate times 2
 * spacings; of u in du and of v in dv, the rates times spacing times 3,145,728, 0
 * on closed edges. Tests 1 to 5, q among the fields, then 8 of dh, du and dv.
 * Where none refuses, the first w*n numbers of each of the three are the result
 * and the rest of each is untouched.
 */
uint64_t basin_tendencies(size_t w, size_t n, uint8_t kind,
                          int64_t g, int64_t c, int64_t r,
                          const int64_t *h, size_t h_len,
                          const int64_t *b, size_t b_len,
                          const int64_t *u, size_t u_len,
                          const int64_t *v, size_t v_len,
                          const uint8_t *barriers, size_t barriers_len,
                          const int64_t *q, size_t q_len,
                          int64_t *dh, size_t dh_len,
                          int64_t *du, size_t du_len,
                          int64_t *dv, size_t dv_len,
                          uint64_t answer[8]);

/*
 * The tendencies of one cell in double precision, and how far to trust them.
 * The cell is j*w + i for column i of row j; q is as in basin_tendencies. Tests
 * 1 to 5, q among the fields, then 10 of cell. Where none refuses, doubles are
 * -D, Tu and Tv, the tendencies of h, u and v, and the answer is 0 and one of
 * these; otherwise doubles are untouched:
 *
 *   0  exact: they are the whole numbers that basin_tendencies gives. The grid
 *      is narrow: every h and b of it is at most 10,000, every u and v -500 to
 *      500, and every number of q -1,000,000 to 1,000,000
 *   1  near: -D is that whole number, Tu and Tv are at most 64 away from theirs
 *
 * The doubles are those of 01's formulas with each operation rounded once to
 * the nearest double: products first, sums from left to right. Tu and Tv are
 * 0.0 on closed edges. Where D is 0.0, -D is -0.0.
 */
uint64_t basin_probe(size_t w, size_t n, uint8_t kind,
                     int64_t g, int64_t c, int64_t r,
                     const int64_t *h, size_t h_len,
                     const int64_t *b, size_t b_len,
                     const int64_t *u, size_t u_len,
                     const int64_t *v, size_t v_len,
                     const uint8_t *barriers, size_t barriers_len,
                     const int64_t *q, size_t q_len,
                     size_t cell,
                     double doubles[3],
                     uint64_t answer[8]);

/*
 * The same of every cell: -D in dh, Tu in du and Tv in dv. Tests 1 to 5, q among
 * the fields, then 8 of dh, du and dv. Where none refuses, the first w*n doubles
 * of each of the three are the result and the rest of each is untouched; the
 * answer is that of a probe.
 */
uint64_t basin_probe_grid(size_t w, size_t n, uint8_t kind,
                          int64_t g, int64_t c, int64_t r,
                          const int64_t *h, size_t h_len,
                          const int64_t *b, size_t b_len,
                          const int64_t *u, size_t u_len,
                          const int64_t *v, size_t v_len,
                          const uint8_t *barriers, size_t barriers_len,
                          const int64_t *q, size_t q_len,
                          double *dh, size_t dh_len,
                          double *du, size_t du_len,
                          double *dv, size_t dv_len,
                          uint64_t answer[8]);

/*
 * One step with an inflow for each cell. Tests 1 to 5, the inflow among the
 * fields, then 6. Where none refuses, h, u and v are stepped in place.
 */
uint64_t basin_step(size_t w, size_t n, uint8_t kind,
                    int64_t g, int64_t c, int64_t r,
                    int64_t *h, size_t h_len,
                    const int64_t *b, size_t b_len,
                    int64_t *u, size_t u_len,
                    int64_t *v, size_t v_len,
                    const uint8_t *barriers, size_t barriers_len,
                    const int64_t *inflow, size_t inflow_len,
                    int64_t *work, size_t work_len,
                    uint64_t answer[8]);

/*
 * Up to so many steps with the same inflow. Tests 1 to 5 as a step, with the
 * number of steps too. Where none refuses, h, u and v are stepped in place
 * until all steps are done: the answer is 0, steps. Or until the next step
 * would be refused with 6: the answer is 6, pass, field, cell, steps. In both,
 * steps is the number of steps done.
 */
uint64_t basin_run(size_t w, size_t n, uint8_t kind,
                   int64_t g, int64_t c, int64_t r,
                   int64_t *h, size_t h_len,
                   const int64_t *b, size_t b_len,
                   int64_t *u, size_t u_len,
                   int64_t *v, size_t v_len,
                   const uint8_t *barriers, size_t barriers_len,
                   const int64_t *inflow, size_t inflow_len,
                   uint64_t steps,
                   int64_t *work, size_t work_len,
                   uint64_t answer[8]);

/*
 * Total depth, the sum of h. Tests 1 to 5. Where none refuses, *total is the
 * result; otherwise it is untouched. Who wants to know first whether a state is
 * refused can ask for this: it writes to no field.
 */
uint64_t basin_total_depth(size_t w, size_t n, uint8_t kind,
                           int64_t g, int64_t c, int64_t r,
                           const int64_t *h, size_t h_len,
                           const int64_t *b, size_t b_len,
                           const int64_t *u, size_t u_len,
                           const int64_t *v, size_t v_len,
                           const uint8_t *barriers, size_t barriers_len,
                           int64_t *total,
                           uint64_t answer[8]);

/* The same of four times total energy. */
uint64_t basin_total_energy(size_t w, size_t n, uint8_t kind,
                            int64_t g, int64_t c, int64_t r,
                            const int64_t *h, size_t h_len,
                            const int64_t *b, size_t b_len,
                            const int64_t *u, size_t u_len,
                            const int64_t *v, size_t v_len,
                            const uint8_t *barriers, size_t barriers_len,
                            int64_t *total,
                            uint64_t answer[8]);

/*
 * Writes the record of a state, its tags rising. Tests 1, 2, 3, 9, 4, 5, then 8
 * of record. Where none refuses, the first 52 + 13*w*n bytes of record are the
 * result and the rest of record is untouched; the answer is 0, number of
 * bytes.
 */
uint64_t basin_write(size_t w, size_t n, uint8_t kind,
                     int64_t g, int64_t c, int64_t r,
                     const int64_t *h, size_t h_len,
                     const int64_t *b, size_t b_len,
                     const int64_t *u, size_t u_len,
                     const int64_t *v, size_t v_len,
                     const uint8_t *barriers, size_t barriers_len,
                     uint64_t seconds, uint64_t milliseconds,
                     uint8_t *record, size_t record_len,
                     uint64_t answer[8]);

/*
 * Reads a record, its tags in any order. Tests 7, 1, 2, then 8 of h, b, u, v
 * and barriers, then 3, 9, 4, 5. Where none refuses, the first w*n numbers of
 * each of the five are the state's, barriers of 0 where the record has none,
 * and the rest of each is untouched; constants are g, c and r; the answer is 0,
 * w, n, kind, seconds, milliseconds. A refused call leaves constants untouched.
 *
 * A record that was read and is written again has its fields by rising tag, and
 * tags 8 and 9 of zeros where it had none.
 */
uint64_t basin_read(const uint8_t *record, size_t record_len,
                    int64_t *h, size_t h_len,
                    int64_t *b, size_t b_len,
                    int64_t *u, size_t u_len,
                    int64_t *v, size_t v_len,
                    uint8_t *barriers, size_t barriers_len,
                    int64_t constants[3],
                    uint64_t answer[8]);

/*
 * Compares two records. Each is tested as one that is read, but without 8: the
 * first wholly, then the second. Where none is refused, the answer is 0 and one
 * of these:
 *
 *   0  same: the same w, n, kind, constants, fields, barriers and timestamp, to
 *      the millisecond
 *   1  the first is newer: it has the later timestamp
 *   2  the second is newer
 *   3  conflict: the timestamp is the same, and something else differs
 *
 * Otherwise the answer is the number of the refusal, the record (1 or 2), and
 * then the values of that number: 7, 2, offset, for instance, or 9, 1.
 */
uint64_t basin_compare(const uint8_t *first, size_t first_len,
                       const uint8_t *second, size_t second_len,
                       uint64_t answer[8]);

/*
 * A state as one thing, for callers who like that better. The functions below
 * pass its parts to the calls above, and add nothing to what is promised there.
 *
 * The lists h, b, u, v and barriers are the caller's: w*n numbers each. Where w
 * or n is not 1 to 64 nothing of them is read, but none is a null pointer.
 */
struct basin_state {
    size_t w, n;
    uint8_t kind;
    int64_t g, c, r;
    int64_t *h, *b, *u, *v;
    uint8_t *barriers;
};

/*
 * w*n, which is passed as the length of each list; 0 where w or n is not 1 to
 * 64. Every call refuses such a state with 1, whatever its lists are.
 */
static inline size_t basin_state_cells(const struct basin_state *s)
{
    if (s->w < 1 || s->w > BASIN_LONGEST_SIDE ||
        s->n < 1 || s->n > BASIN_LONGEST_SIDE)
        return 0;
    return s->w * s->n;
}

/*
 * BASIN_CORNERS(w, n, kind), which is passed as the length of q; 0 where w or n
 * is not 1 to 64.
 */
static inline size_t basin_state_corners(const struct basin_state *s)
{
    return basin_state_cells(s) == 0 ? 0 : BASIN_CORNERS(s->w, s->n, s->kind);
}

/* Potential vorticity, into the BASIN_CORNERS(w, n, kind) places of q. */
static inline uint64_t basin_state_potential_vorticity(
    const struct basin_state *s, int64_t *q, uint64_t answer[8])
{
    size_t cells = basin_state_cells(s);
    return basin_potential_vorticity(s->w, s->n, s->kind, s->g, s->c, s->r,
                                     s->h, cells, s->b, cells, s->u, cells,
                                     s->v, cells, s->barriers, cells,
                                     q, basin_state_corners(s), answer);
}

/*
 * Tendencies with the BASIN_CORNERS(w, n, kind) numbers of q, into the w*n places
 * of dh, du, dv.
 */
static inline uint64_t basin_state_tendencies(
    const struct basin_state *s, const int64_t *q,
    int64_t *dh, int64_t *du, int64_t *dv, uint64_t answer[8])
{
    size_t cells = basin_state_cells(s);
    return basin_tendencies(s->w, s->n, s->kind, s->g, s->c, s->r,
                            s->h, cells, s->b, cells, s->u, cells,
                            s->v, cells, s->barriers, cells,
                            q, basin_state_corners(s),
                            dh, cells, du, cells, dv, cells, answer);
}

/*
 * The probe of a cell with the BASIN_CORNERS(w, n, kind) numbers of q: -D, Tu and
 * Tv, into doubles. answer[1] says how far to trust them.
 */
static inline uint64_t basin_state_probe(
    const struct basin_state *s, const int64_t *q, size_t cell,
    double doubles[3], uint64_t answer[8])
{
    size_t cells = basin_state_cells(s);
    return basin_probe(s->w, s->n, s->kind, s->g, s->c, s->r,
                       s->h, cells, s->b, cells, s->u, cells, s->v, cells,
                       s->barriers, cells, q, basin_state_corners(s), cell,
                       doubles, answer);
}

/* The same of every cell, into the w*n places of dh, du, dv. */
static inline uint64_t basin_state_probe_grid(
    const struct basin_state *s, const int64_t *q,
    double *dh, double *du, double *dv, uint64_t answer[8])
{
    size_t cells = basin_state_cells(s);
    return basin_probe_grid(s->w, s->n, s->kind, s->g, s->c, s->r,
                            s->h, cells, s->b, cells, s->u, cells,
                            s->v, cells, s->barriers, cells,
                            q, basin_state_corners(s),
                            dh, cells, du, cells, dv, cells, answer);
}

/*
 * One step of h, u and v in place, with the w*n numbers of inflow and the
 * BASIN_WORK_LEN(w, n) numbers of work.
 */
static inline uint64_t basin_state_step(
    struct basin_state *s, const int64_t *inflow, int64_t *work,
    uint64_t answer[8])
{
    size_t cells = basin_state_cells(s);
    return basin_step(s->w, s->n, s->kind, s->g, s->c, s->r,
                      s->h, cells, s->b, cells, s->u, cells, s->v, cells,
                      s->barriers, cells, inflow, cells,
                      work, 8 * cells, answer);
}

/* Up to so many steps, with inflow and work as in a step. */
static inline uint64_t basin_state_run(
    struct basin_state *s, const int64_t *inflow, uint64_t steps,
    int64_t *work, uint64_t answer[8])
{
    size_t cells = basin_state_cells(s);
    return basin_run(s->w, s->n, s->kind, s->g, s->c, s->r,
                     s->h, cells, s->b, cells, s->u, cells, s->v, cells,
                     s->barriers, cells, inflow, cells, steps,
                     work, 8 * cells, answer);
}

/* Total depth, into *depth. */
static inline uint64_t basin_state_total_depth(
    const struct basin_state *s, int64_t *depth, uint64_t answer[8])
{
    size_t cells = basin_state_cells(s);
    return basin_total_depth(s->w, s->n, s->kind, s->g, s->c, s->r,
                             s->h, cells, s->b, cells, s->u, cells,
                             s->v, cells, s->barriers, cells, depth, answer);
}

/* Four times total energy, into *energy. */
static inline uint64_t basin_state_total_energy(
    const struct basin_state *s, int64_t *energy, uint64_t answer[8])
{
    size_t cells = basin_state_cells(s);
    return basin_total_energy(s->w, s->n, s->kind, s->g, s->c, s->r,
                              s->h, cells, s->b, cells, s->u, cells,
                              s->v, cells, s->barriers, cells,
                              energy, answer);
}

/*
 * The record of the state, into the first BASIN_RECORD_LEN(w, n) of the
 * record_len bytes of record.
 */
static inline uint64_t basin_state_write(
    const struct basin_state *s, uint64_t seconds, uint64_t milliseconds,
    uint8_t *record, size_t record_len, uint64_t answer[8])
{
    size_t cells = basin_state_cells(s);
    return basin_write(s->w, s->n, s->kind, s->g, s->c, s->r,
                       s->h, cells, s->b, cells, s->u, cells, s->v, cells,
                       s->barriers, cells, seconds, milliseconds,
                       record, record_len, answer);
}

/*
 * Reads a record into the state. Each of its five lists has room for so many
 * cells, BASIN_MOST_CELLS for any record. Where nothing refuses, w, n, kind, g,
 * c and r are the record's too; the timestamp is in answer[4] and answer[5].
 * What the state was before does not count. A refused call leaves all of it.
 */
static inline uint64_t basin_state_read(
    struct basin_state *s, size_t room,
    const uint8_t *record, size_t record_len, uint64_t answer[8])
{
    int64_t constants[3];
    uint64_t refusal = basin_read(record, record_len, s->h, room, s->b, room,
                                  s->u, room, s->v, room, s->barriers, room,
                                  constants, answer);
    if (refusal == 0) {
        s->w = (size_t)answer[1];
        s->n = (size_t)answer[2];
        s->kind = (uint8_t)answer[3];
        s->g = constants[0];
        s->c = constants[1];
        s->r = constants[2];
    }
    return refusal;
}

#ifdef __cplusplus
}
#endif

#endif
