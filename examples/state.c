/*
 * The same core by way of the struct of a state and the functions over it, and
 * by the names that the header has for its numbers. It steps a small dock with
 * a jetty, prints what is kept and what is refused, writes a record and reads
 * it back. From the repository, after `install/build basin`:
 *
 *   gcc -std=c99 -Wall -Wextra -Werror -Iinclude examples/state.c \
 *       target/staticlib/libbasin.a -o target/state
 *   target/state | diff - examples/state.out
 */
#include <inttypes.h>
#include <stdio.h>

#include "basin.h"

/* A dock of three columns and two rows. */
enum { W = 3, N = 2, CELLS = W * N };
enum { CORNERS = BASIN_CORNERS(W, N, BASIN_KIND_BASIN) };

static void print_refusal(const char *name, const uint64_t answer[8])
{
    switch (answer[0]) {
    case BASIN_REFUSED_GRID:
        printf("%s: no such grid\n", name);
        break;
    case BASIN_REFUSED_VALUE:
        printf("%s: field %" PRIu64 " outside its bounds, cell %" PRIu64 "\n",
               name, answer[1], answer[2]);
        break;
    case BASIN_REFUSED_CLOSED_EDGE:
        printf("%s: a current through the %s edge of cell %" PRIu64 "\n", name,
               answer[1] == BASIN_FIELD_U ? "west" : "south", answer[2]);
        break;
    case BASIN_REFUSED_OUT_OF_BOUNDS:
        printf("%s: stopped after %" PRIu64 " steps, cell %" PRIu64 "\n", name,
               answer[4], answer[3]);
        break;
    default:
        printf("%s: refused %" PRIu64 "\n", name, answer[0]);
    }
}

static void print_state(const char *name, const struct basin_state *s)
{
    for (size_t k = 0; k < basin_state_cells(s); k++)
        printf("%s cell %zu: h %" PRId64 " u %" PRId64 " v %" PRId64 "\n",
               name, k, s->h[k], s->u[k], s->v[k]);
}

static void print_totals(const char *name, const struct basin_state *s)
{
    int64_t depth, energy;
    uint64_t answer[8];
    if (basin_state_total_depth(s, &depth, answer) == BASIN_ACCEPTED &&
        basin_state_total_energy(s, &energy, answer) == BASIN_ACCEPTED)
        printf("%s: total depth %" PRId64 ", four times total energy %" PRId64
               "\n", name, depth, energy);
    else
        print_refusal(name, answer);
}

static void print_tendencies(const char *name, const struct basin_state *s)
{
    int64_t q[CORNERS], dh[CELLS], du[CELLS], dv[CELLS];
    uint64_t answer[8];
    if (basin_state_potential_vorticity(s, q, answer) != BASIN_ACCEPTED ||
        basin_state_tendencies(s, q, dh, du, dv, answer) != BASIN_ACCEPTED) {
        print_refusal(name, answer);
        return;
    }
    /* Row by row from the south: four corners, for three cells between walls. */
    for (size_t k = 0; k < basin_state_corners(s); k++)
        printf("%s corner %zu: q %" PRId64 "\n", name, k, q[k]);
    for (size_t k = 0; k < basin_state_cells(s); k++)
        printf("%s cell %zu: dh %" PRId64 "\n", name, k, dh[k]);
}

int main(void)
{
    /* Higher water in the west; a jetty on the west edge of cell 4. */
    int64_t h[CELLS] = {5030, 5000, 4970, 5030, 5000, 4970};
    int64_t b[CELLS] = {0}, u[CELLS] = {0}, v[CELLS] = {0};
    uint8_t barriers[CELLS] = {0, 0, 0, 0, BASIN_BARRIER_WEST, 0};
    struct basin_state dock = {
        .w = W, .n = N, .kind = BASIN_KIND_BASIN,
        .g = 9810, .c = 10, .r = 40000,
        .h = h, .b = b, .u = u, .v = v, .barriers = barriers,
    };
    int64_t inflow[CELLS] = {0}, work[BASIN_WORK_LEN(W, N)];
    uint64_t answer[8];

    if (basin_version() != BASIN_VERSION)
        printf("the header and the library do not belong together\n");

    print_totals("before", &dock);
    if (basin_state_step(&dock, inflow, work, answer) != BASIN_ACCEPTED)
        print_refusal("one step", answer);
    print_state("one step", &dock);
    if (basin_state_run(&dock, inflow, 99, work, answer) == BASIN_ACCEPTED)
        printf("then a run: %" PRIu64 " steps\n", answer[1]);
    print_state("after", &dock);
    print_totals("after", &dock);
    print_tendencies("after", &dock);

    /* Its record, read into lists that have room for more. */
    uint8_t record[BASIN_RECORD_LEN(W, N)];
    if (basin_state_write(&dock, 5, 250, record, sizeof record, answer) ==
        BASIN_ACCEPTED)
        printf("record: %" PRIu64 " bytes\n", answer[1]);
    int64_t lists[4][BASIN_MOST_CELLS];
    uint8_t more[BASIN_MOST_CELLS];
    struct basin_state copy = {
        .h = lists[0], .b = lists[1], .u = lists[2], .v = lists[3],
        .barriers = more,
    };
    if (basin_state_read(&copy, BASIN_MOST_CELLS, record, sizeof record,
                         answer) == BASIN_ACCEPTED)
        printf("read: %zu columns, %zu rows, time %" PRIu64 ".%03" PRIu64 "\n",
               copy.w, copy.n, answer[4], answer[5]);
    print_totals("read", &copy);
    if (basin_state_read(&dock, CELLS - 1, record, sizeof record, answer) ==
        BASIN_REFUSED_DESTINATION)
        printf("read into five cells: no room\n");
    if (basin_compare(record, sizeof record, record, sizeof record, answer) ==
        BASIN_ACCEPTED && answer[1] == BASIN_SAME)
        printf("record and itself: same\n");

    /* What is refused. */
    copy.u[4] = 7;
    print_totals("a current through the jetty", &copy);
    copy.barriers[4] = 4;
    print_totals("a barrier of 4", &copy);
    copy.w = BASIN_LONGEST_SIDE + 1;
    print_totals("65 columns", &copy);

    /* 100 mm go out of each cell with each step. */
    for (size_t k = 0; k < CELLS; k++)
        inflow[k] = -100;
    if (basin_state_run(&dock, inflow, BASIN_LONGEST_RUN, work, answer) != 0)
        print_refusal("drain", answer);
    print_totals("drain, after", &dock);
    return 0;
}
