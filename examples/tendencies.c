/*
 * Works out the potential vorticity and the tendencies of four states of
 * document 01, of one with a barrier and of one between walls, with the proved
 * core. It prints q corner by corner and the tendencies cell by cell, or the
 * number of the refusal and with 4 and 5 the field and the cell. From the
 * repository, after `install/build basin`:
 *
 *   gcc -std=c99 -Wall -Wextra -Werror -Iinclude examples/tendencies.c \
 *       target/staticlib/libbasin.a -o target/tendencies
 *   target/tendencies | diff - examples/tendencies.out
 */
#include <inttypes.h>
#include <stdio.h>

#include "basin.h"

/* The most corners of two cells. */
enum { CORNERS = BASIN_CORNERS(2, 1, BASIN_KIND_BASIN) };

/* A state of up to two cells, without barriers where none are given. */
struct state {
    size_t w, n;
    uint8_t kind;
    int64_t g, c, r;
    int64_t h[2], b[2], u[2], v[2];
    uint8_t barriers[2];
};

static void print_tendencies(const char *name, const struct state *s)
{
    size_t cells = s->w * s->n, corners = BASIN_CORNERS(s->w, s->n, s->kind);
    int64_t q[CORNERS], dh[2], du[2], dv[2];
    uint64_t answer[8];
    uint64_t number = basin_potential_vorticity(s->w, s->n, s->kind,
                                                s->g, s->c, s->r,
                                                s->h, cells, s->b, cells,
                                                s->u, cells, s->v, cells,
                                                s->barriers, cells,
                                                q, CORNERS, answer);
    if (number == 0)
        number = basin_tendencies(s->w, s->n, s->kind, s->g, s->c, s->r,
                                  s->h, cells, s->b, cells,
                                  s->u, cells, s->v, cells,
                                  s->barriers, cells, q, corners,
                                  dh, 2, du, 2, dv, 2, answer);
    if (number != 0) {
        printf("%s: refused %" PRIu64, name, number);
        if (number == 4 || number == 5)
            printf(" field %" PRIu64 " cell %" PRIu64, answer[1], answer[2]);
        printf("\n");
        return;
    }
    printf("%s: q", name);
    for (size_t k = 0; k < corners; k++)
        printf(" %" PRId64, q[k]);
    printf("\n");
    for (size_t k = 0; k < cells; k++)
        printf("%s cell %zu: dh %" PRId64 " du %" PRId64 " dv %" PRId64 "\n",
               name, k, dh[k], du[k], dv[k]);
}

int main(void)
{
    struct state example_2 = {
        .w = 1, .n = 1, .kind = 0, .g = 9810, .c = 10, .r = 1000,
        .h = {2000}, .b = {0}, .u = {100}, .v = {-50},
    };
    struct state example_4 = {
        .w = 2, .n = 1, .kind = 0, .g = 9810, .c = 0, .r = 1000,
        .h = {2000, 3000}, .b = {0, 0}, .u = {10, 0}, .v = {0, 0},
    };
    /* Example 6 is example 4 with kind 2, which closes the edge of u[0]. */
    struct state example_6 = example_4;
    example_6.kind = 2;
    /* Example 7 is example 2, a millimetre too shallow. */
    struct state example_7 = example_2;
    example_7.h[0] = 999;
    /* Example 4 with a barrier, which closes the edge of u[1]. */
    struct state jetty = example_4;
    jetty.barriers[1] = 1;
    /* The current of example 4 at the other edge, between walls. The grid turns:
     * a corner on a wall goes by the water of its own side. */
    struct state dock = example_6;
    dock.c = 100;
    dock.u[0] = 0;
    dock.u[1] = 10;

    print_tendencies("example 2", &example_2);
    print_tendencies("example 4", &example_4);
    print_tendencies("example 6", &example_6);
    print_tendencies("example 7", &example_7);
    print_tendencies("jetty", &jetty);
    print_tendencies("dock", &dock);
    return 0;
}
