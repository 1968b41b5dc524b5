/* The functions of the proved library for C and Rust. Link target/staticlib/libexports.a, which tools/library builds.
 * Each function takes every input, tests it itself, ends, and returns the sheet's answer number. Where `out` has fewer entries than
 * the function has numbers, nothing is written to it.
 *
 * What the caller owes, and no function can test. A slice is a pointer and its number of entries.
 * - The pointer is valid for that many entries, for reading and, where it isn't const, for writing, until the call returns.
 * - It is aligned as C aligns its entries: int64_t to 8 bytes, int32_t to 4, uint16_t to 2.
 * - A slice lent for writing overlaps no other slice of the call, whether that one is written or only read. Slices that are only read
 *   may overlap each other.
 * - Until the call returns, nothing else writes to any of its slices, nor reads one that is lent for writing.
 * - NULL goes with length 0, and with no other length; tools/lent.c tries it at each slice.
 * - The stack has 128 KiB left: the judge's and the walk's tables are 57 KiB of it.
 * Where one of these doesn't hold, the proofs say nothing of the call: it may answer wrongly, alter any byte that it can reach, or end
 * the program. (Tape and points in one buffer, for one, reads zeros.)
 *
 * The functions keep nothing between calls and share nothing of their own, so threads may call them at the same time on slices of which this holds. */
#ifndef SOLID_H
#define SOLID_H

#include <stddef.h>
#include <stdint.h>

#ifdef __cplusplus
extern "C" {
#endif

/* Judges a solid. out, 3 numbers: V, E, F where 0 is returned, else the places. */
uint16_t solid_judge(const int32_t *points, size_t points_len, const uint16_t *corners, size_t corners_len,
                     const uint16_t *begins, size_t begins_len, int64_t *out, size_t out_len);

/* Walks on a solid. out, 6 numbers: the judge's three places, then vertex, height, moves. The trail is lent for V entries or more. */
uint16_t solid_walk(const int32_t *points, size_t points_len, const uint16_t *corners, size_t corners_len,
                    const uint16_t *begins, size_t begins_len, uint32_t start, int32_t dx, int32_t dy, int32_t dz,
                    uint16_t *trail, size_t trail_len, int64_t *out, size_t out_len);

/* Looks up a facet's corners. out, 2 numbers: the first's place in the run of corners, and how many; both 0 where the tables don't pass
 * SIZE or there is no such facet. The number is always 0. */
uint16_t solid_facet(const int32_t *points, size_t points_len, const uint16_t *corners, size_t corners_len,
                     const uint16_t *begins, size_t begins_len, uint32_t facet, int64_t *out, size_t out_len);

/* Judges an outline, x and y in turn. out, 1 number: the count where 0 is returned, else the place. */
uint16_t solid_outline(const int32_t *points, size_t points_len, int64_t *out, size_t out_len);

/* Reads a tape into tables lent with at least 3,072, 6,144 and 2,049 entries. out, 3 numbers: V, F, corners, or the offset, 0, 0. */
uint16_t solid_read_tape(const uint8_t *tape, size_t tape_len, int32_t *points, size_t points_len, uint16_t *corners,
                         size_t corners_len, uint16_t *begins, size_t begins_len, int64_t *out, size_t out_len);

/* Writes the tape of tables. out, 3 numbers: the length, 0, 0 where 0 is returned, else the places. */
uint16_t solid_write_tape(const int32_t *points, size_t points_len, const uint16_t *corners, size_t corners_len,
                          const uint16_t *begins, size_t begins_len, uint8_t *buffer, size_t buffer_len, int64_t *out,
                          size_t out_len);

#ifdef __cplusplus
}
#endif

#endif
