/*
 * Tendencies in double precision, and how far to trust them. It probes cells of
 * three states and prints -D, Tu and Tv as doubles with the word exact or near,
 * and beside them how far they are from the whole numbers; then all cells of a
 * grid, and what is refused. From the repository, after `install/build basin`:
 *
 *   gcc -std=c99 -Wall -Wextra -Werror -Iinclude examples/probe.c \
 *       target/staticlib/libbasin.a -o target/probe
 *   target/probe | diff - examples/probe.out
 */
#include <inttypes.h>
#include <stdio.h>

#include "basin.h"

enum { CELLS = 2, CORNERS = BASIN_CORNERS(2, 1, BASIN_KIND_BASIN) };

static const char *word(const uint64_t answer[8])
{
    return answer[1] == BASIN_EXACT ? "exact" : "near";
}

static void print_probe(const char *name, const struct basin_state *s,
                        const int64_t *q, size_t cell)
{
    double doubles[3];
    uint64_t answer[8];
    if (basin_state_probe(s, q, cell, doubles, answer) != BASIN_ACCEPTED) {
        printf("%s, cell %zu: refused %" PRIu64 "\n", name, cell, answer[0]);
        return;
    }
    printf("%s, cell %zu, %s: -D %.0f Tu %.0f Tv %.0f\n", name, cell,
           word(answer), doubles[0], doubles[1], doubles[2]);

    /* The whole numbers. A double this large is one too. */
    int64_t dh[CELLS], du[CELLS], dv[CELLS];
    basin_state_tendencies(s, q, dh, du, dv, answer);
    printf("  off by %" PRId64 ", %" PRId64 ", %" PRId64 "\n",
           (int64_t)doubles[0] - dh[cell], (int64_t)doubles[1] - du[cell],
           (int64_t)doubles[2] - dv[cell]);
}

static void print_grid(const char *name, const struct basin_state *s,
                       const int64_t *q)
{
    double dh[CELLS], du[CELLS], dv[CELLS];
    uint64_t answer[8];
    if (basin_state_probe_grid(s, q, dh, du, dv, answer) != BASIN_ACCEPTED) {
        printf("%s: refused %" PRIu64 "\n", name, answer[0]);
        return;
    }
    printf("%s, %s\n", name, word(answer));
    for (size_t k = 0; k < basin_state_cells(s); k++)
        printf("  cell %zu: -D %.0f Tu %.0f Tv %.0f\n", k, dh[k], du[k], dv[k]);
}

int main(void)
{
    uint8_t open[CELLS] = {0, 0};

    /* Worked example 2: one cell. Nothing flows through it on balance. */
    int64_t h[CELLS] = {2000}, b[CELLS] = {0}, u[CELLS] = {100}, v[CELLS] = {-50};
    int64_t q[CELLS] = {328};
    struct basin_state one = {
        .w = 1, .n = 1, .kind = BASIN_KIND_PERIODIC,
        .g = 9810, .c = 10, .r = 1000,
        .h = h, .b = b, .u = u, .v = v, .barriers = open,
    };
    print_probe("example 2", &one, q, 0);
    print_probe("example 2", &one, q, 1);

    /* Two cells, all at the bounds up to which doubles are exact. */
    int64_t h2[CELLS] = {10000, 10000}, b2[CELLS] = {10000, 0};
    int64_t u2[CELLS] = {500, -500}, v2[CELLS] = {500, -500};
    int64_t q2[CELLS] = {1000000, -1000000};
    struct basin_state two = {
        .w = 2, .n = 1, .kind = BASIN_KIND_PERIODIC,
        .g = 10000, .c = 0, .r = 1000,
        .h = h2, .b = b2, .u = u2, .v = v2, .barriers = open,
    };
    print_probe("narrow", &two, q2, 0);
    print_grid("narrow", &two, q2);
    /* A millimetre more in the other cell: of cell 0 too they are near now. */
    h2[1] = 10001;
    print_probe("one past", &two, q2, 0);

    /* Numbers so large that doubles round what is made of them. */
    int64_t h3[CELLS] = {99999, 87654}, b3[CELLS] = {0, 1};
    int64_t u3[CELLS] = {-4999, -4999}, v3[CELLS] = {4997, 4321};
    int64_t q3[CELLS] = {2000000, 1999997};
    struct basin_state large = {
        .w = 1, .n = 2, .kind = BASIN_KIND_PERIODIC,
        .g = 9810, .c = 0, .r = 1000,
        .h = h3, .b = b3, .u = u3, .v = v3, .barriers = open,
    };
    print_probe("large", &large, q3, 0);
    print_grid("large", &large, q3);

    /* Closed edges have 0, and no cell is probed where the state is refused.
     * Between walls the two cells have six corners. */
    int64_t q4[CORNERS] = {1000000, -1000000, 0, 0, 500000, -500000};
    two.kind = BASIN_KIND_BASIN;
    print_probe("a current through a wall", &two, q4, 2);
    u2[0] = v2[0] = v2[1] = 0;
    print_grid("walls", &two, q4);
    return 0;
}
