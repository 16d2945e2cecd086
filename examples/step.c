/*
 * Takes steps and runs of states of document 01 with the proved core, and
 * prints what is left cell by cell, the number of steps done, total depth, or
 * the number of the refusal and what is told with it. From the repository,
 * after `install/build basin`:
 *
 *   gcc -std=c99 -Wall -Wextra -Werror -Iinclude examples/step.c \
 *       target/staticlib/libbasin.a -o target/step
 *   target/step | diff - examples/step.out
 */
#include <inttypes.h>
#include <stdio.h>

#include "basin.h"

/*
 * A state of up to two cells, the inflow of each, and work space. What is not
 * given below is 0: no barriers, no inflow.
 */
struct state {
    size_t w, n;
    uint8_t kind;
    int64_t g, c, r;
    int64_t h[2], b[2], u[2], v[2];
    uint8_t barriers[2];
    int64_t inflow[2];
    int64_t work[16];
};

/* The number of a refusal and its values; the place after them. */
static size_t print_refusal(const uint64_t *answer)
{
    size_t k = 0;
    printf(" refused %" PRIu64, answer[k++]);
    if (answer[0] == 6)
        printf(" pass %" PRIu64, answer[k++]);
    if (answer[0] >= 4 && answer[0] <= 6) {
        printf(" field %" PRIu64, answer[k++]);
        printf(" cell %" PRIu64, answer[k++]);
    }
    return k;
}

static void print_state(const char *name, const struct state *s)
{
    for (size_t k = 0; k < s->w * s->n; k++)
        printf("%s cell %zu: h %" PRId64 " u %" PRId64 " v %" PRId64 "\n",
               name, k, s->h[k], s->u[k], s->v[k]);
}

static void print_total_depth(const char *name, const struct state *s)
{
    size_t cells = s->w * s->n;
    int64_t total;
    uint64_t answer[8];
    if (basin_total_depth(s->w, s->n, s->kind, s->g, s->c, s->r,
                          s->h, cells, s->b, cells, s->u, cells, s->v, cells,
                          s->barriers, cells, &total, answer) == 0)
        printf("%s: total depth %" PRId64 "\n", name, total);
}

static void print_step(const char *name, struct state *s, size_t work_len)
{
    size_t cells = s->w * s->n;
    uint64_t answer[8];
    uint64_t number = basin_step(s->w, s->n, s->kind, s->g, s->c, s->r,
                                 s->h, cells, s->b, cells,
                                 s->u, cells, s->v, cells,
                                 s->barriers, cells, s->inflow, cells,
                                 s->work, work_len, answer);
    if (number == 0) {
        print_state(name, s);
        return;
    }
    printf("%s:", name);
    print_refusal(answer);
    printf("\n");
}

static void print_run(const char *name, struct state *s, uint64_t steps)
{
    size_t cells = s->w * s->n;
    uint64_t answer[8];
    uint64_t number = basin_run(s->w, s->n, s->kind, s->g, s->c, s->r,
                                s->h, cells, s->b, cells,
                                s->u, cells, s->v, cells,
                                s->barriers, cells, s->inflow, cells, steps,
                                s->work, 8 * cells, answer);
    printf("%s:", name);
    size_t done = number == 0 ? 1 : print_refusal(answer);
    /* The steps done are told last, but not with 1 to 5. */
    if (number == 0 || number == 6)
        printf(" done %" PRIu64, answer[done]);
    printf("\n");
}

int main(void)
{
    struct state example_2 = {
        .w = 1, .n = 1, .kind = 0, .g = 9810, .c = 10, .r = 1000,
        .h = {2000}, .b = {0}, .u = {100}, .v = {-50},
    };
    struct state example_4 = {
        .w = 2, .n = 1, .kind = 0, .g = 9810, .c = 0, .r = 100000,
        .h = {2000, 3000}, .b = {0, 0}, .u = {10, 0}, .v = {0, 0},
    };

    /* Examples 3 and 5 are examples 2 and 4 stepped. */
    struct state example_3 = example_2;
    print_step("example 3", &example_3, 8);
    struct state example_5 = example_4;
    print_step("example 5", &example_5, 16);

    /* A barrier closes the west edge of the second cell, where u stays 0. */
    struct state jetty = example_4;
    jetty.barriers[1] = 1;
    print_step("jetty", &jetty, 16);
    print_total_depth("jetty", &jetty);
    jetty.u[1] = 5;
    print_step("jetty, a current through it", &jetty, 16);
    jetty.barriers[1] = 4;
    print_step("jetty, a byte above 3", &jetty, 16);

    struct state example_9 = example_2;
    print_step("example 9, work space of 7", &example_9, 7);
    print_run("example 9, run of 0", &example_9, 0);
    print_run("example 9, run of 10,001", &example_9, 10001);

    /* 7 mm come in and 2 go out with each step. */
    struct state inlet = example_4;
    inlet.inflow[0] = 7;
    inlet.inflow[1] = -2;
    print_total_depth("inlet, before", &inlet);
    print_run("inlet, run of 100", &inlet, 100);
    print_total_depth("inlet, after", &inlet);
    print_state("inlet", &inlet);

    /* The water falls until a step would leave less than 1,000 mm. */
    struct state drain = example_4;
    drain.inflow[0] = -100;
    drain.inflow[1] = -100;
    print_run("drain, run of 100", &drain, 100);
    print_step("drain, one step more", &drain, 16);
    print_total_depth("drain, after", &drain);
    return 0;
}
