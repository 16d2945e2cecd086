/*
 * Writes the record of worked example 10 of document 01 with the proved core,
 * reads it back, compares it with others, in one second and with barriers too,
 * and shows how milliseconds above 999, a barrier above 3 and a damaged record
 * are refused. From the repository, after `install/build basin`:
 *
 *   gcc -std=c99 -Wall -Wextra -Werror -Iinclude examples/record.c \
 *       target/staticlib/libbasin.a -o target/record
 *   target/record | diff - examples/record.out
 */
#include <inttypes.h>
#include <stdio.h>
#include <string.h>

#include "basin.h"

/* A state of up to two cells, without barriers where none are given. */
struct state {
    size_t w, n;
    uint8_t kind;
    int64_t g, c, r;
    int64_t h[2], b[2], u[2], v[2];
    uint8_t barriers[2];
};

/* Bytes of the record of two cells. */
enum { ROOM = 52 + 13 * 2 };

/* The number of its bytes. A refusal is printed, and gives 0. */
static size_t write_record(const char *name, const struct state *s,
                           uint64_t seconds, uint64_t milliseconds,
                           uint8_t *record)
{
    size_t cells = s->w * s->n;
    uint64_t answer[8];
    uint64_t number = basin_write(s->w, s->n, s->kind, s->g, s->c, s->r,
                                  s->h, cells, s->b, cells,
                                  s->u, cells, s->v, cells,
                                  s->barriers, cells,
                                  seconds, milliseconds, record, ROOM, answer);
    if (number == 0)
        return answer[1];
    printf("%s: refused %" PRIu64 "\n", name, number);
    return 0;
}

static void print_record(const char *name, const uint8_t *record, size_t len)
{
    printf("%s:", name);
    /* A line for each field: a tag, a length in two bytes, and the value. */
    for (size_t k = 0, next = 0; k < len; k++) {
        if (k == next) {
            printf("\n  ");
            next += 3 + 256 * record[k + 1] + record[k + 2];
        }
        printf("%02X", record[k]);
    }
    printf("\n");
}

static void print_read(const char *name, const uint8_t *record, size_t len)
{
    int64_t h[2], b[2], u[2], v[2];
    uint8_t barriers[2];
    /* g, c and r */
    int64_t constants[3];
    uint64_t answer[8];
    uint64_t number = basin_read(record, len, h, 2, b, 2, u, 2, v, 2,
                                 barriers, 2, constants, answer);
    if (number != 0) {
        printf("%s: refused %" PRIu64, name, number);
        if (number == 4 || number == 5)
            printf(" field %" PRIu64 " cell %" PRIu64, answer[1], answer[2]);
        if (number == 7)
            printf(" offset %" PRIu64, answer[1]);
        printf("\n");
        return;
    }
    printf("%s: w %" PRIu64 " n %" PRIu64 " kind %" PRIu64
           " time %" PRIu64 ".%03" PRIu64 " g %" PRId64 " c %" PRId64
           " r %" PRId64 "\n",
           name, answer[1], answer[2], answer[3], answer[4], answer[5],
           constants[0], constants[1], constants[2]);
    for (size_t k = 0; k < answer[1] * answer[2]; k++)
        printf("%s cell %zu: h %" PRId64 " b %" PRId64 " u %" PRId64
               " v %" PRId64 " barrier %d\n", name, k, h[k], b[k], u[k], v[k],
               barriers[k]);
}

static void print_comparison(const char *name,
                             const uint8_t *first, size_t first_len,
                             const uint8_t *second, size_t second_len)
{
    static const char *const means[] = {
        "same", "first newer", "second newer", "conflict",
    };
    uint64_t answer[8];
    uint64_t number = basin_compare(first, first_len, second, second_len,
                                    answer);
    if (number == 0) {
        printf("%s: %s\n", name, means[answer[1]]);
        return;
    }
    printf("%s: refused %" PRIu64 " record %" PRIu64, name, number, answer[1]);
    if (number == 7)
        printf(" offset %" PRIu64, answer[2]);
    printf("\n");
}

int main(void)
{
    /* Example 10 is the state of example 2. */
    struct state state = {
        .w = 1, .n = 1, .kind = 0, .g = 9810, .c = 10, .r = 1000,
        .h = {2000}, .b = {0}, .u = {100}, .v = {-50},
    };
    uint8_t record[ROOM], later[ROOM], other[ROOM];
    size_t len = write_record("example 10", &state, 0, 0, record);
    print_record("example 10", record, len);
    print_read("example 10", record, len);
    print_comparison("example 10 and itself", record, len, record, len);

    /* The same state a quarter of a second later. */
    size_t later_len = write_record("later", &state, 0, 250, later);
    print_read("later", later, later_len);
    print_comparison("example 10 and later", record, len, later, later_len);
    print_comparison("later and example 10", later, later_len, record, len);

    /* Another state, a millisecond before that, and at the same time. */
    state.h[0] = 2001;
    size_t other_len = write_record("other", &state, 0, 249, other);
    print_comparison("later and other before", later, later_len,
                     other, other_len);
    other_len = write_record("other", &state, 0, 250, other);
    print_comparison("later and other at once", later, later_len,
                     other, other_len);

    /* Milliseconds are 0 to 999. Nothing is cut off first: 65,536 is no 0. */
    write_record("1,000 milliseconds", &state, 0, 1000, other);
    write_record("65,536 milliseconds", &state, 0, 65536, other);

    /* The same with u 0, without a barrier and with one on the west edge. */
    state.u[0] = 0;
    other_len = write_record("other", &state, 0, 250, other);
    state.barriers[0] = 1;
    uint8_t barred[ROOM];
    size_t barred_len = write_record("barred", &state, 0, 250, barred);
    print_read("barred", barred, barred_len);
    print_comparison("other and barred", other, other_len, barred, barred_len);

    /* The last byte is the barrier. v is not 0 on the south edge; 4 is none. */
    barred[barred_len - 1] = 2;
    print_read("barred in the south", barred, barred_len);
    barred[barred_len - 1] = 4;
    print_read("barrier of 4", barred, barred_len);

    /* The value of the last field, which begins at 61, is cut off. */
    print_read("cut off", later, later_len - 1);
    print_comparison("later and cut off", later, later_len,
                     later, later_len - 1);

    /*
     * Without that field the barriers are 0, and without the one before it,
     * which begins at 56, the milliseconds are.
     */
    print_comparison("later and without tag 9", later, later_len, later, 61);
    print_comparison("example 10 and without tag 8", record, len, later, 56);

    /* A tag 9 that is there has a byte for each cell. */
    memcpy(other, later, 61);
    memcpy(other + 61, "\x09\x00\x00", 3);
    print_read("tag 9 without a byte", other, 64);

    /* The fields may come in any order, but none twice. */
    uint8_t turned[ROOM];
    memcpy(turned, later + 56, 9);
    memcpy(turned + 9, later, 56);
    print_comparison("later and turned", later, later_len, turned, later_len);
    memcpy(turned + later_len, later + 61, 4);
    print_read("twice", turned, later_len + 4);
    return 0;
}
