/*
 * The header as C and as C++: two files of one program include it, twice each.
 * This one tells the sizes and calls the functions over a state; compiled with
 * -DOTHER it uses nothing of them but one. The gate compiles both.
 */
#include "basin.h"
#include "basin.h"

#ifdef __cplusplus
extern "C"
#endif
size_t cells_elsewhere(const struct basin_state *s);

#ifdef OTHER

size_t cells_elsewhere(const struct basin_state *s)
{
    return basin_state_cells(s);
}

#else

#include <stdio.h>

/* Sizes are constants, of type size_t. */
static int64_t work[BASIN_WORK_LEN(64, 64)];
static uint8_t record[BASIN_RECORD_LEN(1, 1)];
static int64_t corners[BASIN_CORNERS(64, 64, BASIN_KIND_BASIN)];

static int wrong;

static void expect(const char *name, uint64_t found, uint64_t wanted)
{
    if (found == wanted)
        return;
    wrong = 1;
    printf("%s: %d, not %d\n", name, (int)found, (int)wanted);
}

static void sizes(void)
{
    uint8_t w = 64, n = 64;
    expect("work space", BASIN_WORK_LEN(w, n), 32768);
    expect("record", BASIN_RECORD_LEN(w, n), 53300);
    expect("sizes of sums", BASIN_RECORD_LEN(1 + 1, 2 + 1), 130);
    expect("places of work", sizeof work / sizeof work[0], 32768);
    expect("bytes of a record", sizeof record, 65);
    expect("type of a size", sizeof(BASIN_WORK_LEN(w, n)), sizeof(size_t));
    expect("places of q", sizeof corners / sizeof corners[0],
           BASIN_MOST_CORNERS);
    expect("corners without walls", BASIN_CORNERS(w, n, BASIN_KIND_PERIODIC),
           4096);
    expect("corners of a channel", BASIN_CORNERS(w, n, BASIN_KIND_CHANNEL),
           4160);
    expect("corners of sums", BASIN_CORNERS(1 + 1, 2 + 1, 1 + 1), 12);
    expect("type of corners", sizeof(BASIN_CORNERS(w, n, 1)), sizeof(size_t));
    expect("cells", BASIN_MOST_CELLS, BASIN_LONGEST_SIDE * BASIN_LONGEST_SIDE);
    expect("version", basin_version(), BASIN_VERSION);
}

/* Each refusal by its name. */
static void refusals(void)
{
    int64_t h[1] = {2000}, b[1] = {0}, u[1] = {100}, v[1] = {-50}, q[1];
    int64_t inflow[1] = {0}, total;
    uint8_t barriers[1] = {BASIN_BARRIER_NONE};
    uint64_t answer[8];
    struct basin_state s = {
        1, 1, BASIN_KIND_PERIODIC, 9810, 10, 1000, h, b, u, v, barriers,
    };

    expect("cells of both files", cells_elsewhere(&s), basin_state_cells(&s));
    expect("0", basin_state_run(&s, inflow, 0, work, answer), BASIN_ACCEPTED);
    expect("1, a run", basin_state_run(&s, inflow, BASIN_LONGEST_RUN + 1, work,
                                       answer), BASIN_REFUSED_GRID);
    /* A product that is 0 where it is cut, and lists that have one number. */
    s.w = s.n = (size_t)1 << 32;
    expect("cells of no grid", basin_state_cells(&s), 0);
    expect("corners of no grid", basin_state_corners(&s), 0);
    expect("1, sides", basin_state_total_depth(&s, &total, answer),
           BASIN_REFUSED_GRID);
    s.w = s.n = 1;
    s.kind = BASIN_KIND_BASIN + 1;
    expect("1, kind", basin_state_total_energy(&s, &total, answer),
           BASIN_REFUSED_GRID);
    s.kind = BASIN_KIND_PERIODIC;
    expect("2", basin_tendencies(1, 1, s.kind, s.g, s.c, s.r, h, 1, b, 1, u, 1,
                                 v, 1, barriers, 1, h, 0, q, 1, work, 1,
                                 inflow, 1, answer), BASIN_REFUSED_LENGTHS);
    s.g = 0;
    expect("3", basin_state_step(&s, inflow, work, answer),
           BASIN_REFUSED_CONSTANTS);
    s.g = 9810;
    inflow[0] = 1001;
    expect("4", basin_state_step(&s, inflow, work, answer),
           BASIN_REFUSED_VALUE);
    expect("4, field", answer[1], BASIN_FIELD_INFLOW);
    inflow[0] = -1000;
    barriers[0] = BASIN_BARRIER_WEST | BASIN_BARRIER_SOUTH;
    expect("5", basin_state_potential_vorticity(&s, q, answer),
           BASIN_REFUSED_CLOSED_EDGE);
    expect("5, field", answer[1], BASIN_FIELD_U);
    barriers[0] = BASIN_BARRIER_NONE;
    expect("6", basin_state_run(&s, inflow, 2, work, answer),
           BASIN_REFUSED_OUT_OF_BOUNDS);
    expect("6, field", answer[2], BASIN_FIELD_DEPTH);
    expect("7", basin_state_read(&s, 1, record, sizeof record, answer),
           BASIN_REFUSED_RECORD);
    expect("8", basin_state_write(&s, 0, 0, record, 64, answer),
           BASIN_REFUSED_DESTINATION);
    expect("9", basin_state_write(&s, 0, 1000, record, 65, answer),
           BASIN_REFUSED_MILLISECONDS);
    double doubles[3];
    q[0] = 328;
    expect("10", basin_state_probe(&s, q, 1, doubles, answer),
           BASIN_REFUSED_NO_SUCH_CELL);
}

/* Each kind and each field by its name. */
static void names(void)
{
    int64_t h[1] = {2000}, b[1] = {0}, u[1] = {100}, v[1] = {-50}, q[1];
    int64_t *lists[4] = {h, b, u, v}, total;
    const uint64_t fields[4] = {
        BASIN_FIELD_DEPTH, BASIN_FIELD_BOTTOM, BASIN_FIELD_U, BASIN_FIELD_V,
    };
    uint8_t barriers[1] = {4};
    uint64_t answer[8];
    struct basin_state s = {
        1, 1, BASIN_KIND_PERIODIC, 9810, 10, 1000, h, b, u, v, barriers,
    };

    basin_state_total_depth(&s, &total, answer);
    expect("barriers", answer[1], BASIN_FIELD_BARRIERS);
    barriers[0] = BASIN_BARRIER_NONE;
    for (int k = 0; k < 4; k++) {
        int64_t kept = lists[k][0];
        lists[k][0] = -6000;
        basin_state_total_depth(&s, &total, answer);
        expect("field", answer[1], fields[k]);
        lists[k][0] = kept;
    }
    q[0] = 2000001;
    int64_t dh[1], du[1], dv[1];
    basin_state_tendencies(&s, q, dh, du, dv, answer);
    expect("vorticity", answer[1], BASIN_FIELD_VORTICITY);
    expect("no closed edge", basin_state_total_depth(&s, &total, answer),
           BASIN_ACCEPTED);
    s.kind = BASIN_KIND_BASIN;
    basin_state_total_depth(&s, &total, answer);
    expect("a basin closes the west", answer[1], BASIN_FIELD_U);
    s.kind = BASIN_KIND_CHANNEL;
    basin_state_total_depth(&s, &total, answer);
    expect("a channel closes the south", answer[1], BASIN_FIELD_V);
}

/* Doubles are the whole numbers in a narrow grid, and near them in another. */
static void probes(void)
{
    int64_t h[1] = {2000}, b[1] = {0}, u[1] = {100}, v[1] = {-50}, q[1] = {328};
    uint8_t barriers[1] = {BASIN_BARRIER_NONE};
    uint64_t answer[8];
    struct basin_state s = {
        1, 1, BASIN_KIND_PERIODIC, 9810, 10, 1000, h, b, u, v, barriers,
    };
    double doubles[3], dh[1], du[1], dv[1];
    expect("a cell", basin_state_probe(&s, q, 0, doubles, answer), 0);
    expect("exact", answer[1], BASIN_EXACT);
    expect("-D", doubles[0] == 0.0, 1);
    expect("Tu", doubles[1] == -1574400000.0, 1);
    expect("Tv", doubles[2] == -3148800000.0, 1);
    h[0] = 10001;
    expect("a grid", basin_state_probe_grid(&s, q, dh, du, dv, answer), 0);
    expect("near", answer[1], BASIN_NEAR);
    expect("the grid's", dh[0] == 0.0 && du[0] == -7872787200.0 &&
           dv[0] == -15745574400.0, 1);
}

/* Between walls a cell has corners of its own, and q is as long. */
static void walls(void)
{
    int64_t h[1] = {2000}, b[1] = {0}, u[1] = {0}, v[1] = {0};
    int64_t dh[1], du[1], dv[1];
    uint8_t barriers[1] = {BASIN_BARRIER_NONE};
    uint64_t answer[8];
    struct basin_state s = {
        1, 1, BASIN_KIND_BASIN, 9810, 10, 1000, h, b, u, v, barriers,
    };
    expect("corners of a basin", basin_state_corners(&s), 4);
    corners[4] = 7;
    expect("q", basin_state_potential_vorticity(&s, corners, answer), 0);
    for (int k = 0; k < 4; k++)
        expect("a corner", corners[k] == 328, 1);
    expect("past the corners", corners[4] == 7, 1);
    expect("tendencies", basin_state_tendencies(&s, corners, dh, du, dv,
                                                answer), 0);
    corners[3] = -2000001;
    expect("4, q", basin_state_tendencies(&s, corners, dh, du, dv, answer),
           BASIN_REFUSED_VALUE);
    expect("4, corner", answer[2], 3);
    s.kind = BASIN_KIND_CHANNEL;
    expect("corners of a channel", basin_state_corners(&s), 2);
    expect("two corners", basin_state_tendencies(&s, corners, dh, du, dv,
                                                 answer), 0);
    expect("8, q", basin_potential_vorticity(1, 1, s.kind, s.g, s.c, s.r, h, 1,
                                             b, 1, u, 1, v, 1, barriers, 1,
                                             corners, 1, answer),
           BASIN_REFUSED_DESTINATION);
}

/* A record goes round, and what it was before does not count. */
static void round_trip(void)
{
    int64_t h[1] = {2000}, b[1] = {7}, u[1] = {0}, v[1] = {-50};
    uint8_t barriers[1] = {BASIN_BARRIER_WEST};
    uint64_t answer[8];
    struct basin_state s = {
        1, 1, BASIN_KIND_PERIODIC, 9810, -10, 1000, h, b, u, v, barriers,
    };
    expect("written", basin_state_write(&s, 5, 250, record, 65, answer), 0);
    h[0] = b[0] = u[0] = v[0] = s.g = s.c = s.r = 0;
    s.w = s.n = 0;
    s.kind = 9;
    barriers[0] = 0;
    expect("read", basin_state_read(&s, 1, record, 65, answer), 0);
    expect("moment", answer[4] == 5 && answer[5] == 250, 1);
    expect("grid", s.w == 1 && s.n == 1 && s.kind == 0, 1);
    expect("constants", s.g == 9810 && s.c == -10 && s.r == 1000, 1);
    expect("fields", h[0] == 2000 && b[0] == 7 && u[0] == 0 && v[0] == -50, 1);
    expect("barriers", barriers[0], BASIN_BARRIER_WEST);
    expect("compared", basin_compare(record, 65, record, 65, answer), 0);
    expect("same", answer[1], BASIN_SAME);

    uint8_t other[BASIN_RECORD_LEN(1, 1)];
    basin_state_write(&s, 5, 251, other, 65, answer);
    basin_compare(other, 65, record, 65, answer);
    expect("first newer", answer[1], BASIN_FIRST_NEWER);
    basin_compare(record, 65, other, 65, answer);
    expect("second newer", answer[1], BASIN_SECOND_NEWER);
    v[0] = 0;
    basin_state_write(&s, 5, 250, other, 65, answer);
    basin_compare(record, 65, other, 65, answer);
    expect("conflict", answer[1], BASIN_CONFLICT);
}

int main(void)
{
    sizes();
    refusals();
    names();
    probes();
    walls();
    round_trip();
    return wrong;
}

#endif
