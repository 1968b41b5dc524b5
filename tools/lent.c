/* What a C caller may lend: NULL with length 0 at each slice of each function, and `out` too short, which is left as it was. */
#include "solid.h"

#include <stdio.h>
#include <string.h>

static const int32_t points[12] = {0, 0, 0, 1, 0, 0, 0, 1, 0, 0, 0, 1};
static const uint16_t corners[12] = {0, 2, 1, 0, 1, 3, 0, 3, 2, 1, 2, 3};
static const uint16_t begins[5] = {0, 3, 6, 9, 12};
static const int32_t square[8] = {0, 0, 2, 0, 2, 2, 0, 2};

static int wrong;
static void is(const char *what, long found, long expected) {
    if (found == expected) return;
    printf("%s: %ld, not %ld\n", what, found, expected);
    wrong = 1;
}

/* `out` is filled with sevens; of the sevens, as many as the function has not written are left */
static int64_t out[6];
static void fill(void) {
    for (int i = 0; i < 6; i++) out[i] = 7;
}
static void left(const char *what, int from) {
    for (int i = from; i < 6; i++) is(what, (long)out[i], 7);
}

static void part(const char *what, const int32_t *p, size_t p_len, const uint16_t *c, size_t c_len, const uint16_t *b, size_t b_len,
                 uint32_t facet, long place, long length) {
    fill();
    is(what, solid_facet(p, p_len, c, c_len, b, b_len, facet, out, 2), 0);
    is(what, (long)out[0], place);
    is(what, (long)out[1], length);
    left(what, 2);
}

int main(void) {
    uint16_t trail[4];

    is("judge", solid_judge(points, 12, corners, 12, begins, 5, out, 3), 0);
    is("judge, its first place", (long)out[0], 4);
    is("judge, no points", solid_judge(NULL, 0, corners, 12, begins, 5, out, 3), 1);
    is("judge, no corners", solid_judge(points, 12, NULL, 0, begins, 5, out, 3), 1);
    is("judge, no begins", solid_judge(points, 12, corners, 12, NULL, 0, out, 3), 1);
    is("judge, no out", solid_judge(points, 12, corners, 12, begins, 5, NULL, 0), 0);
    is("judge, nothing", solid_judge(NULL, 0, NULL, 0, NULL, 0, NULL, 0), 1);
    fill();
    is("judge, out too short", solid_judge(points, 12, corners, 12, begins, 5, out, 2), 0);
    left("judge, out too short", 0);

    part("facet", points, 12, corners, 12, begins, 5, 3, 9, 3);
    part("facet, past the last", points, 12, corners, 12, begins, 5, 4, 0, 0);
    part("facet, no points", NULL, 0, corners, 12, begins, 5, 3, 0, 0);
    part("facet, no corners", points, 12, NULL, 0, begins, 5, 3, 0, 0);
    part("facet, no begins", points, 12, corners, 12, NULL, 0, 3, 0, 0);
    part("facet, nothing", NULL, 0, NULL, 0, NULL, 0, 0, 0, 0);
    is("facet, no out", solid_facet(points, 12, corners, 12, begins, 5, 3, NULL, 0), 0);

    is("walk", solid_walk(points, 12, corners, 12, begins, 5, 3, 0, 0, -1, trail, 4, out, 6), 0);
    is("walk, its moves", (long)out[5], 1);
    is("walk, no points", solid_walk(NULL, 0, corners, 12, begins, 5, 3, 0, 0, -1, trail, 4, out, 6), 1);
    is("walk, no corners", solid_walk(points, 12, NULL, 0, begins, 5, 3, 0, 0, -1, trail, 4, out, 6), 1);
    is("walk, no begins", solid_walk(points, 12, corners, 12, NULL, 0, 3, 0, 0, -1, trail, 4, out, 6), 1);
    is("walk, no trail", solid_walk(points, 12, corners, 12, begins, 5, 3, 0, 0, -1, NULL, 0, out, 6), 15);
    fill();
    is("walk, out too short", solid_walk(points, 12, corners, 12, begins, 5, 3, 0, 0, -1, trail, 4, out, 5), 0);
    left("walk, out too short", 0);
    is("facet, out too short", solid_facet(points, 12, corners, 12, begins, 5, 3, out, 1), 0);
    left("facet, out too short", 0);
    is("walk, no out", solid_walk(points, 12, corners, 12, begins, 5, 3, 0, 0, -1, trail, 4, NULL, 0), 0);

    is("outline", solid_outline(square, 8, out, 1), 0);
    is("outline, no points", solid_outline(NULL, 0, out, 1), 24);
    fill();
    is("outline, out too short", solid_outline(square, 8, out, 0), 0);
    left("outline, out too short", 0);
    is("outline, no out", solid_outline(square, 8, NULL, 0), 0);

    static uint8_t tape[64];
    static int32_t p[3072];
    static uint16_t c[6144], b[2049];
    is("write", solid_write_tape(points, 12, corners, 12, begins, 5, tape, 64, out, 3), 0);
    is("write, its length", (long)out[0], 61);
    is("write, no points", solid_write_tape(NULL, 0, corners, 12, begins, 5, tape, 64, out, 3), 1);
    is("write, no corners", solid_write_tape(points, 12, NULL, 0, begins, 5, tape, 64, out, 3), 1);
    is("write, no begins", solid_write_tape(points, 12, corners, 12, NULL, 0, tape, 64, out, 3), 1);
    is("write, no buffer", solid_write_tape(points, 12, corners, 12, begins, 5, NULL, 0, out, 3), 23);
    fill();
    is("write, out too short", solid_write_tape(points, 12, corners, 12, begins, 5, tape, 64, out, 2), 0);
    left("write, out too short", 0);
    is("write, no out", solid_write_tape(points, 12, corners, 12, begins, 5, tape, 64, NULL, 0), 0);

    is("read", solid_read_tape(tape, 61, p, 3072, c, 6144, b, 2049, out, 3), 0);
    is("read, the points", memcmp(p, points, sizeof points), 0);
    is("read, the corners", memcmp(c, corners, sizeof corners), 0);
    is("read, the begins", memcmp(b, begins, sizeof begins), 0);
    is("read, no tape", solid_read_tape(NULL, 0, p, 3072, c, 6144, b, 2049, out, 3), 20);
    is("read, no points", solid_read_tape(tape, 61, NULL, 0, c, 6144, b, 2049, out, 3), 16);
    is("read, no corners", solid_read_tape(tape, 61, p, 3072, NULL, 0, b, 2049, out, 3), 16);
    is("read, no begins", solid_read_tape(tape, 61, p, 3072, c, 6144, NULL, 0, out, 3), 16);
    fill();
    is("read, out too short", solid_read_tape(tape, 61, p, 3072, c, 6144, b, 2049, out, 2), 0);
    left("read, out too short", 0);
    is("read, no out", solid_read_tape(tape, 61, p, 3072, c, 6144, b, 2049, NULL, 0), 0);
    return wrong;
}
