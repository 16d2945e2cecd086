/*
 * Every call on the state of each record that is named, for valgrind: each list
 * is by itself and has no place too many, and what is to be filled has no value
 * before. Then a bad value at cell after cell, and records cut off. It prints
 * the calls made, and what a call answers that it should not.
 */
#include <inttypes.h>
#include <stdio.h>
#include <stdlib.h>
#include <string.h>

#include "basin.h"

static uint64_t calls, wrong;

static void *room(size_t bytes)
{
    void *memory = malloc(bytes);
    if (memory == NULL)
        exit(2);
    return memory;
}

static void expect(const char *name, uint64_t number, const uint64_t answer[8],
                   uint64_t wanted)
{
    calls++;
    if (number == wanted && answer[0] == wanted)
        return;
    wrong++;
    printf("%s: %" PRIu64 ", not %" PRIu64 "\n", name, number, wanted);
}

/* All numbers of a list, so that each has to have a value. */
static int64_t sum(const int64_t *list, size_t len)
{
    int64_t all = 0;
    for (size_t k = 0; k < len; k++)
        all += list[k];
    return all;
}

/* The same of doubles. */
static double sum_of_doubles(const double *list, size_t len)
{
    double all = 0;
    for (size_t k = 0; k < len; k++)
        all += list[k];
    return all;
}

static struct basin_state lists(size_t cells)
{
    struct basin_state s = {
        .h = room(8 * cells), .b = room(8 * cells), .u = room(8 * cells),
        .v = room(8 * cells), .barriers = room(cells),
    };
    return s;
}

static void drop(struct basin_state *s)
{
    free(s->h);
    free(s->b);
    free(s->u);
    free(s->v);
    free(s->barriers);
}

static void diagnose(const struct basin_state *s)
{
    size_t cells = basin_state_cells(s);
    int64_t *q = room(8 * basin_state_corners(s)), *dh = room(8 * cells);
    int64_t *du = room(8 * cells), *dv = room(8 * cells);
    int64_t depth, energy;
    uint64_t answer[8];
    expect("vorticity", basin_state_potential_vorticity(s, q, answer), answer,
           BASIN_ACCEPTED);
    expect("tendencies", basin_state_tendencies(s, q, dh, du, dv, answer),
           answer, BASIN_ACCEPTED);
    expect("total depth", basin_state_total_depth(s, &depth, answer), answer,
           BASIN_ACCEPTED);
    expect("total energy", basin_state_total_energy(s, &energy, answer), answer,
           BASIN_ACCEPTED);
    if (depth != sum(s->h, cells) || sum(dh, cells) != 0 || energy < 0)
        wrong++;
    if (sum(q, basin_state_corners(s)) == INT64_MIN)
        wrong++;
    if (sum(du, cells) == INT64_MIN && sum(dv, cells) == INT64_MIN)
        wrong++;
    free(q);
    free(dh);
    free(du);
    free(dv);
}

static void probe(const struct basin_state *s)
{
    size_t cells = basin_state_cells(s);
    int64_t *q = room(8 * basin_state_corners(s));
    double *dh = room(8 * cells), *du = room(8 * cells), *dv = room(8 * cells);
    double *doubles = room(3 * sizeof *doubles);
    uint64_t answer[8];
    expect("vorticity", basin_state_potential_vorticity(s, q, answer), answer,
           BASIN_ACCEPTED);
    expect("no cell", basin_state_probe(s, q, cells, doubles, answer), answer,
           BASIN_REFUSED_NO_SUCH_CELL);
    expect("probe of a grid", basin_state_probe_grid(s, q, dh, du, dv, answer),
           answer, BASIN_ACCEPTED);
    uint64_t trust = answer[1];
    if (sum_of_doubles(dh, cells) != 0)
        wrong++;
    for (size_t k = 0; k < cells; k++) {
        expect("probe", basin_state_probe(s, q, k, doubles, answer), answer,
               BASIN_ACCEPTED);
        if (answer[1] != trust || doubles[0] != dh[k] || doubles[1] != du[k] ||
            doubles[2] != dv[k])
            wrong++;
    }
    free(q);
    free(dh);
    free(du);
    free(dv);
    free(doubles);
}

static void step(struct basin_state *s)
{
    size_t cells = basin_state_cells(s);
    int64_t *inflow = calloc(cells, 8), *work = room(64 * cells);
    uint64_t answer[8];
    if (inflow == NULL)
        exit(2);
    expect("step", basin_state_step(s, inflow, work, answer), answer,
           BASIN_ACCEPTED);
    expect("run", basin_state_run(s, inflow, 3, work, answer), answer,
           BASIN_ACCEPTED);
    if (sum(work, 8 * cells) != 0)
        wrong++;
    free(inflow);
    free(work);
}

static void refuse(const struct basin_state *s)
{
    size_t cells = basin_state_cells(s);
    int64_t *fields[] = {s->h, s->b, s->u, s->v};
    int64_t depth;
    uint64_t answer[8];
    for (size_t k = 0; k < cells; k++) {
        for (uint64_t field = 0; field < 4; field++) {
            int64_t kept = fields[field][k];
            fields[field][k] = INT64_MIN;
            expect("bad value", basin_state_total_depth(s, &depth, answer),
                   answer, BASIN_REFUSED_VALUE);
            if (answer[1] != field || answer[2] != k)
                wrong++;
            fields[field][k] = kept;
        }
        uint8_t kept = s->barriers[k];
        s->barriers[k] = 4;
        expect("bad barrier", basin_state_total_depth(s, &depth, answer),
               answer, BASIN_REFUSED_VALUE);
        if (answer[1] != BASIN_FIELD_BARRIERS || answer[2] != k)
            wrong++;
        s->barriers[k] = kept;
    }
}

/* The record cut off at byte after byte, each in memory of its own length. */
static void cut(const uint8_t *record, size_t len, struct basin_state *s,
                size_t cells)
{
    uint64_t answer[8];
    size_t by = len / 500 + 1;
    for (size_t k = 0; k < len; k += by) {
        /* a tag 8 or 9 may be left out, if it is left out whole */
        if (k == len - 3 - cells || k == len - 8 - cells)
            continue;
        uint8_t *part = room(k + 1);
        memcpy(part, record, k);
        uint8_t *exact = k == 0 ? part : realloc(part, k);
        if (exact == NULL)
            exit(2);
        expect("cut off", basin_state_read(s, cells, exact, k, answer), answer,
               BASIN_REFUSED_RECORD);
        expect("comparison", basin_compare(record, len, exact, k, answer),
               answer, BASIN_REFUSED_RECORD);
        free(exact);
    }
}

static uint8_t *contents(const char *name, size_t *len)
{
    FILE *file = fopen(name, "rb");
    if (file == NULL || fseek(file, 0, SEEK_END) != 0) {
        printf("%s cannot be read\n", name);
        exit(2);
    }
    *len = (size_t)ftell(file);
    rewind(file);
    uint8_t *bytes = room(*len);
    if (fread(bytes, 1, *len, file) != *len)
        exit(2);
    fclose(file);
    return bytes;
}

static void try_record(const char *name)
{
    size_t len;
    uint8_t *record = contents(name, &len);
    size_t cells = (len - 52) / 13;
    struct basin_state s = lists(cells);
    uint64_t answer[8];
    expect(name, basin_state_read(&s, cells, record, len, answer), answer,
           BASIN_ACCEPTED);
    uint8_t *again = room(len);
    expect("write", basin_state_write(&s, answer[4], answer[5], again, len,
                                      answer), answer, BASIN_ACCEPTED);
    if (memcmp(record, again, len) != 0)
        wrong++;
    expect("compare", basin_compare(record, len, again, len, answer), answer,
           BASIN_ACCEPTED);
    diagnose(&s);
    probe(&s);
    step(&s);
    diagnose(&s);
    probe(&s);
    refuse(&s);
    cut(record, len, &s, cells);
    drop(&s);
    free(record);
    free(again);
}

int main(int count, char **names)
{
    for (int k = 1; k < count; k++)
        try_record(names[k]);
    printf("%" PRIu64 " calls, %" PRIu64 " wrong\n", calls, wrong);
    return wrong != 0;
}
