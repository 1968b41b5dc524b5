/* Judges the tape in a file through the library, and prints the line that ./judge prints:
 *   cc -Iinclude include/example.c target/staticlib/libexports.a -o target/example
 *   target/example samples/case_a.tape */
#include "solid.h"

#include <inttypes.h>
#include <stdio.h>

#define COUNT(table) (sizeof(table) / sizeof((table)[0]))

static uint8_t tape[21510];
static int32_t points[3072];
static uint16_t corners[6144], begins[2049];

int main(int argc, char **argv)
{
    FILE *file = argc == 2 ? fopen(argv[1], "rb") : NULL;
    if (!file) {
        fputs("example: give a file that can be read\n", stderr);
        return 2;
    }
    size_t length = fread(tape, 1, COUNT(tape), file);
    if (ferror(file)) {
        fputs("example: the file can't be read\n", stderr);
        return 2;
    }
    fclose(file);
    int64_t out[3];
    uint16_t number = solid_read_tape(tape, length, points, COUNT(points), corners, COUNT(corners), begins, COUNT(begins), out, 3);
    if (number == 0) {
        /* out has V, F and the number of corners. */
        number = solid_judge(points, 3 * (size_t)out[0], corners, (size_t)out[2], begins, (size_t)out[1] + 1, out, 3);
    }
    printf("%" PRIu16 " %" PRId64 " %" PRId64 " %" PRId64 "\n", number, out[0], out[1], out[2]);
    if (fflush(stdout)) {
        fputs("example: the answer can't be written\n", stderr);
        return 2;
    }
    return 0;
}
