/* The C entry of the findspot engine. Link target/staticlib/libcapi.a, which `tools/build capi` makes: x86-64 code, for C11 and C++11 on. */
#ifndef FINDSPOT_H
#define FINDSPOT_H

#include <stddef.h>
#include <stdint.h>

#ifdef __cplusplus
#define FINDSPOT_STATIC_ASSERT(condition, message) static_assert(condition, message)
extern "C" {
#else
#define FINDSPOT_STATIC_ASSERT(condition, message) _Static_assert(condition, message)
#endif

FINDSPOT_STATIC_ASSERT(sizeof(size_t) == 8, "the library counts with 64 bits");

/*
 * What is lent, for every call below. A text or a table is a pointer and a count: so many entries stand from there on, and no byte beside them is
 * read or written. The pointer is not NULL, even where the count is 0. A table that a call writes overlaps nothing else that the call is lent.
 * Meanwhile nobody else writes what is lent, or reads a table that the call writes. Which numbers the entries are is free.
 */

/* A place as one number, or minus the number of a refusal. */
enum {
    FINDSPOT_OUTSIDE = 0,
    FINDSPOT_INSIDE = 1,
    FINDSPOT_BOUNDARY = 2,
    FINDSPOT_TEXT_TOO_LONG = -1,
    FINDSPOT_BAD_LINE = -2,
    FINDSPOT_UNSOUND = -15
};

/* The number in a field `refusal`: why a call is refused. A refused call has written nothing. */
enum {
    FINDSPOT_ACCEPTED = 0,
    FINDSPOT_REFUSED_TEXT_TOO_LONG = 1,
    FINDSPOT_REFUSED_BAD_LINE = 2,
    FINDSPOT_REFUSED_UNEVEN = 3,
    FINDSPOT_REFUSED_TOO_MANY = 4,
    FINDSPOT_REFUSED_NO_SUCH_CORNER = 5,
    FINDSPOT_REFUSED_PLACE_OUT_OF_RANGE = 6,
    FINDSPOT_REFUSED_TABLE_TOO_SHORT = 11,
    FINDSPOT_REFUSED_PLAN_OUT_OF_RANGE = 12,
    FINDSPOT_REFUSED_UNDO_FULL = 13,
    FINDSPOT_REFUSED_NOTHING_TO_UNDO = 14,
    FINDSPOT_REFUSED_UNSOUND = 15,
    FINDSPOT_REFUSED_OFF_GRAMMAR = 21,
    FINDSPOT_REFUSED_UNCLOSED = 22
};

/* The table that refusal 11 names. Nodes are the rows of boxes and of parts, and the output is where Well-Known Text is written. */
enum {
    FINDSPOT_TABLE_CORNERS = 1,
    FINDSPOT_TABLE_RINGS = 2,
    FINDSPOT_TABLE_POLYGONS = 3,
    FINDSPOT_TABLE_NODES = 4,
    FINDSPOT_TABLE_EDGES = 5,
    FINDSPOT_TABLE_OUTPUT = 6
};

/* The kind of a plan. */
enum {
    FINDSPOT_LIST = 0,
    FINDSPOT_TREE = 1
};

/*
 * Where the point (x, y) lies in the plan that a text gives.
 *
 * The text is `length` bytes from `text` on, which are only read (see "What is lent").
 * One record a line, fields parted by tabs, each line ended by byte 10: `plan`, alone or with `list` or `tree`;
 * then `outer` and `hole` (lists) or `node` (trees), which open a ring; `at`, x, y, which is a corner of it.
 *
 * A text of more than 65,536 bytes is refused with FINDSPOT_TEXT_TOO_LONG, and else one with a line that breaks the
 * format with FINDSPOT_BAD_LINE, whatever the point is. Otherwise the answer is FINDSPOT_OUTSIDE, FINDSPOT_INSIDE or
 * FINDSPOT_BOUNDARY; a point, or any corner of the plan, beyond 2^40 in x or y, either sign, makes it FINDSPOT_OUTSIDE.
 * No other number is answered.
 *
 * It keeps nothing between calls, may be called from several threads at once, and takes about 342 KB of stack.
 */
int64_t findspot_locate_text(const uint8_t *text, size_t length, int64_t x, int64_t y);

/*
 * What reading a text answers: the refusal number or 0; its detail, which is the line that refusal 2 names, counted from 1, or the table that
 * refusal 11 names, else 0; the plan's kind and how many corners, rings and polygons it has, all 0 where the text is refused.
 */
typedef struct {
    size_t refusal, detail, kind, corners, rings, polygons;
} findspot_reading;

FINDSPOT_STATIC_ASSERT(sizeof(findspot_reading) == 6 * 8, "six numbers");

/*
 * Reads the plan of a text, of the format above, into tables: the corners' x, y, x, y, .., the length of each ring and, for a list, the number of
 * rings of each polygon, as `findspot_prepare` takes them. The counts are of numbers, two a corner. Behind the plan the tables stay as they were.
 *
 * Refused, in this order, with 1, 2 and its line, or 11 and its table: corners, rings (`lengths`) or polygons (`counts`). The text is judged whole
 * before a table is looked at. A text of n bytes has at most n / 7 corners, n / 5 rings and n / 6 polygons; the largest has 9,360, 13,106 or
 * 10,921 of them. A tree needs no room for polygons: `count_count` may be 0, though `counts` is not NULL (see "What is lent").
 */
findspot_reading findspot_read_plan(const uint8_t *text, size_t length, int64_t *corners, size_t corner_count, size_t *lengths,
                                    size_t length_count, size_t *counts, size_t count_count);

/* A part of a text, in bytes: where it starts, and its length. */
typedef struct {
    size_t offset, length;
} findspot_span;

FINDSPOT_STATIC_ASSERT(sizeof(findspot_span) == 2 * 8, "two numbers");

/*
 * Line k of a text, counted from 1, without its line end; both numbers are 0 where there is no line k. A last piece that is not ended is a line.
 * Behind a last line feed stands one more piece, empty, at the text's end: for `plan\n` k = 2 gives 5, 0, and k = 3 gives 0, 0.
 * Any bytes will do, of any length (see "What is lent").
 */
findspot_span findspot_line(const uint8_t *text, size_t length, size_t k);

/*
 * Well-Known Text, the POLYGON and MULTIPOLYGON of OGC Simple Features with whole coordinates. It always holds a list (FINDSPOT_LIST).
 *
 *     POLYGON ((0 0, 10 0, 10 10, 0 10, 0 0), (4 4, 6 4, 6 6, 4 4))                   an outer ring and a hole
 *     MULTIPOLYGON(((0 0,10 0,10 10,0 0)),EMPTY,((30 0,34 0,30 4,30 0)))              two polygons: an EMPTY member adds none
 *     POLYGON EMPTY                                                                   no polygon, as MULTIPOLYGON EMPTY
 *
 * Words are capitals. Brackets hold one thing or more, parted by commas: a ring positions, a polygon rings, the outer one first, a MULTIPOLYGON
 * polygons and EMPTY members. A ring is never EMPTY. A position is x and y, decimal numbers of 64 bits with no leading zero, plus sign or -0.
 * Spaces, byte 32 alone, are free round brackets and commas; one or more part the numbers of a position, and the first word from EMPTY. Nothing
 * else is taken: no space before the first word or behind a last EMPTY, no tab, no line end, no Z or M, no lower case, no fraction or exponent.
 *
 * Each ring ends with its first position again. The tables do not have that last one: reading drops it and writing adds it.
 */

/*
 * What reading Well-Known Text answers: the refusal number or 0; its detail, which is the place that refusal 21 names, counted from 0, or the table
 * that refusal 11 names, else 0; how many corners, rings and polygons the plan has, all 0 where the text is refused.
 */
typedef struct {
    size_t refusal, detail, corners, rings, polygons;
} findspot_wkt_reading;

FINDSPOT_STATIC_ASSERT(sizeof(findspot_wkt_reading) == 5 * 8, "five numbers");

/*
 * Reads the plan of a Well-Known Text into tables, as `findspot_read_plan` does with its own format: the corners' x, y, x, y, .., the length of
 * each ring and the number of rings of each polygon. The counts are of numbers, two a corner. Behind the plan the tables stay as they were.
 *
 * Refused, in this order: 1 (more than 65,536 bytes), 21 with its place (the text is off the grammar), 22 (a ring whose ends differ, or of one
 * position), 11 with its table: corners, rings (`lengths`) or polygons (`counts`). The text is judged whole, for 21 and then for 22, before a
 * table is looked at. 21's place: the bytes before it begin some text of the grammar, of whatever length, and with the byte there they begin
 * none. Where the text only ends early the place is its length.
 *
 * A text of n bytes has at most n / 4 corners, n / 10 rings and n / 12 polygons; the largest has 16,380, 6,552 or 5,460 of them.
 */
findspot_wkt_reading findspot_read_wkt(const uint8_t *text, size_t length, int64_t *corners, size_t corner_count, size_t *lengths,
                                       size_t length_count, size_t *counts, size_t count_count);

/* The refusal number or 0; the table that refusal 11 names or 0; how many bytes are written, 0 where the plan is refused. */
typedef struct {
    size_t refusal, table, length;
} findspot_wkt_writing;

FINDSPOT_STATIC_ASSERT(sizeof(findspot_wkt_writing) == 3 * 8, "three numbers");

/*
 * Writes a list plan as Well-Known Text: coordinates, lengths and counts as `findspot_prepare` takes them, in range or not. So a corrected plan of
 * n corners goes back: the first 2n numbers of its table of corners, with the lengths and counts from which it was prepared. (The tables `rings`
 * and `polygons` of a prepared plan do not serve: they hold sums.)
 *
 * The text is a MULTIPOLYGON, of one polygon too, with one space behind that word, behind each comma and between x and y and no other; a plan of
 * no polygons gives MULTIPOLYGON EMPTY. No byte 0 ends it, and behind it the output stays as it was. Read again, it gives the same plan.
 *
 * Refused, in this order: 4, 3, 22 (a tree, or a ring of no corners), 1 (the text would have more than 65,536 bytes), 11 with table 6 (it is
 * longer than the output). An output of 65,536 bytes always suffices. Another kind gets 4 and 3 as a tree does, and then 15.
 */
findspot_wkt_writing findspot_write_wkt(size_t kind, const int64_t *coordinates, size_t coordinate_count, const size_t *lengths,
                                        size_t length_count, const size_t *counts, size_t count_count, uint8_t *output,
                                        size_t output_count);

/*
 * Prepared plans. The caller lends every table (see "What is lent") and keeps the state.
 *
 * Boxes, parts and undo records are rows of numbers, one behind the other, and their counts are of rows: a box is four numbers (least x, least y,
 * greatest x, greatest y), a part three (first place, number of places, left child's place), an undo record three (corner, old x, old y).
 *
 * The state: kind 0 a list, 1 a tree; out_of_range 0 or 1; how many corners, rings and polygons the plan has; how many corrections can be
 * undone. A kind or mark that is another number is answered with 15 (FINDSPOT_UNSOUND where the answer is one number).
 */
typedef struct {
    size_t kind, out_of_range, corners, rings, polygons, undo_depth;
} findspot_state;

FINDSPOT_STATIC_ASSERT(sizeof(findspot_state) == 6 * 8, "six numbers");

/*
 * The refusal number or 0; the table that refusal 11 names or 0; the number of nodes; the state that goes with the tables, all zeros where the plan
 * is refused.
 */
typedef struct {
    size_t refusal, table, nodes;
    findspot_state state;
} findspot_preparing;

FINDSPOT_STATIC_ASSERT(sizeof(findspot_preparing) == 9 * 8, "nine numbers");

/* The refusal number or 0; 1 where a point is not outside; its place from 0. */
typedef struct {
    size_t refusal, found, place;
} findspot_first;

FINDSPOT_STATIC_ASSERT(sizeof(findspot_first) == 3 * 8, "three numbers");

/* N(n), the rows of boxes and of parts that a plan of n corners needs: 1 up to 8, else 1 + N(n / 2) + N(n - n / 2). It is defined for any n. */
size_t findspot_node_count(size_t corners);

/*
 * Prepares a plan: coordinates x, y, x, y, .., the length of each ring, the number of rings of each polygon (not looked at for a tree). For n
 * corners the tables need 2n corner numbers, an entry a ring and a polygon, `findspot_node_count(n)` rows of boxes and of parts, and n edges.
 * Refused with 4, 3 or 11, in this order, or before all else with 15 for another kind. A plan with a corner out of range is accepted with no nodes;
 * every point is outside of it.
 */
findspot_preparing findspot_prepare(size_t kind, const int64_t *coordinates, size_t coordinate_count, const size_t *lengths,
                                    size_t length_count, const size_t *counts, size_t count_count, int64_t *corners,
                                    size_t corner_count, size_t *rings, size_t ring_count, size_t *polygons,
                                    size_t polygon_count, int64_t *boxes, size_t box_count, size_t *parts,
                                    size_t part_count, size_t *edges, size_t edge_count);

/*
 * Where the point lies, through the boxes. Numbers that name no state get FINDSPOT_UNSOUND before all else. A point beyond 2^40 in x or y, either
 * sign, is FINDSPOT_OUTSIDE, and so is every point of a plan that is out of range, before a table is read. Otherwise a table that is shorter than
 * the state says gets FINDSPOT_UNSOUND. Tables that `findspot_prepare` and corrections left get the point's place; any others get some place or
 * FINDSPOT_UNSOUND. Tables are only read; a call takes up to 600 KiB of stack. The doubled form takes twice the point, each coordinate within 2^41.
 */
int64_t findspot_locate(findspot_state state, const int64_t *corners, size_t corner_count, const size_t *rings, size_t ring_count,
                        const size_t *polygons, size_t polygon_count, const int64_t *boxes, size_t box_count,
                        const size_t *parts, size_t part_count, const size_t *edges, size_t edge_count, int64_t x,
                        int64_t y);
int64_t findspot_locate_doubled(findspot_state state, const int64_t *corners, size_t corner_count, const size_t *rings,
                                size_t ring_count, const size_t *polygons, size_t polygon_count, const int64_t *boxes,
                                size_t box_count, const size_t *parts, size_t part_count, const size_t *edges,
                                size_t edge_count, int64_t x, int64_t y);

/* The same ring by ring, without boxes, parts and edges. */
int64_t findspot_locate_by_rings(findspot_state state, const int64_t *corners, size_t corner_count, const size_t *rings,
                                 size_t ring_count, const size_t *polygons, size_t polygon_count, int64_t x, int64_t y);
int64_t findspot_locate_doubled_by_rings(findspot_state state, const int64_t *corners, size_t corner_count,
                                         const size_t *rings, size_t ring_count, const size_t *polygons,
                                         size_t polygon_count, int64_t x, int64_t y);

/*
 * The first of the listed points x, y, x, y, .. that is not outside; point_count is the number of coordinates, twice that of points. Refused,
 * in this order, with 4 (more than 65,536 points), 3 (a y is missing), or 15 where the numbers name no state or a look-up of a point gets
 * FINDSPOT_UNSOUND.
 */
findspot_first findspot_first_not_outside(findspot_state state, const int64_t *corners, size_t corner_count, const size_t *rings,
                                          size_t ring_count, const size_t *polygons, size_t polygon_count,
                                          const int64_t *boxes, size_t box_count, const size_t *parts,
                                          size_t part_count, const size_t *edges, size_t edge_count,
                                          const int64_t *points, size_t point_count);

/*
 * Corner corrections with undo on a prepared plan. The undo table has a row for each move that can be undone; how many rows it is lent with, and
 * at most 65,536, is how many moves can be.
 *
 * A move puts a corner (numbered from 0 in the plan's order) at a new place and records its old one; a move to the same place records too.
 * Refused, in this order: 12 (the plan is out of range), 5 (no such corner), 6 (the new place is out of range), 13 (the undo table is full), 15.
 * An undo takes back the latest move: 12, 14 (nothing to undo), 15. Numbers that name no state get 15 before all else. A refusal is the number in
 * `refusal`, which is 0 where the call is accepted, and changes nothing. The state that is answered goes with the tables from then on.
 *
 * Both write corners and boxes and nothing else, and a move one row of the undo table. They visit a few hundred entries of a plan of a million
 * corners; at worst, with all corners at one place, as many as the plan has. Tables that `findspot_prepare` and these calls left never get 15.
 */
typedef struct {
    size_t refusal;
    findspot_state state;
} findspot_correction;

FINDSPOT_STATIC_ASSERT(sizeof(findspot_correction) == 7 * 8, "seven numbers");

findspot_correction findspot_move(findspot_state state, int64_t *corners, size_t corner_count, const size_t *rings, size_t ring_count,
                                  int64_t *boxes, size_t box_count, const size_t *parts, size_t part_count,
                                  const size_t *edges, size_t edge_count, int64_t *undo, size_t undo_count,
                                  size_t corner, int64_t x, int64_t y);
findspot_correction findspot_undo(findspot_state state, int64_t *corners, size_t corner_count, const size_t *rings, size_t ring_count,
                                  int64_t *boxes, size_t box_count, const size_t *parts, size_t part_count,
                                  const size_t *edges, size_t edge_count, const int64_t *undo, size_t undo_count);

#ifdef __cplusplus
}
#endif

#undef FINDSPOT_STATIC_ASSERT

#endif
