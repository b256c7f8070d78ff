/* A plan as a server in C keeps it: read from text, prepared once, asked on both grids, through the boxes and ring by ring, corrected and undone.
 *
 *     tools/build capi
 *     cc -Iinclude examples/session.c target/staticlib/libcapi.a -o target/session && target/session
 *
 * It is C11, and C++ as it stands.
 */
#include <stdio.h>
#include <string.h>

#include "findspot.h"

/* Room for this plan. A server takes room for each by the counts that reading answers. */
enum { CORNERS = 16, RINGS = 4, POLYGONS = 4, NODES = 3, MOVES = 2 };

/* The tables that are lent, with the state that goes with them. */
typedef struct {
    findspot_state state;
    int64_t corners[2 * CORNERS];
    size_t rings[RINGS], polygons[POLYGONS];
    int64_t boxes[4 * NODES];
    size_t parts[3 * NODES], edges[CORNERS];
    int64_t undo[3 * MOVES];
} prepared_plan;

/* A square with a square hole, and a triangle beside it. */
static const char *const two_polygons =
    "plan\tlist\n"
    "outer\nat\t0\t0\nat\t10\t0\nat\t10\t10\nat\t0\t10\n"
    "hole\nat\t4\t4\nat\t6\t4\nat\t6\t6\nat\t4\t6\n"
    "outer\nat\t30\t0\nat\t34\t0\nat\t30\t4\n";

static const int64_t points[] = {11, 5, 5, 5, 4, 5, 1, 5, 12, 12, 31, 1};
enum { POINT_NUMBERS = sizeof points / sizeof points[0] };

static const char *place_name(int64_t answer) {
    switch (answer) {
    case FINDSPOT_OUTSIDE: return "outside";
    case FINDSPOT_INSIDE: return "inside";
    case FINDSPOT_BOUNDARY: return "boundary";
    default: return "refused";
    }
}

static const char *refusal_name(size_t refusal) {
    switch (refusal) {
    case FINDSPOT_ACCEPTED: return "accepted";
    case FINDSPOT_REFUSED_TEXT_TOO_LONG: return "the text is too long";
    case FINDSPOT_REFUSED_BAD_LINE: return "a line breaks the format";
    case FINDSPOT_REFUSED_UNEVEN: return "the counts do not add up";
    case FINDSPOT_REFUSED_TOO_MANY: return "there are too many";
    case FINDSPOT_REFUSED_NO_SUCH_CORNER: return "there is no such corner";
    case FINDSPOT_REFUSED_PLACE_OUT_OF_RANGE: return "the new place is out of range";
    case FINDSPOT_REFUSED_TABLE_TOO_SHORT: return "a table is too short";
    case FINDSPOT_REFUSED_PLAN_OUT_OF_RANGE: return "the plan is out of range";
    case FINDSPOT_REFUSED_UNDO_FULL: return "the undo table is full";
    case FINDSPOT_REFUSED_NOTHING_TO_UNDO: return "there is nothing to undo";
    case FINDSPOT_REFUSED_UNSOUND: return "the tables do not belong together";
    case FINDSPOT_REFUSED_OFF_GRAMMAR: return "the text is off the grammar";
    case FINDSPOT_REFUSED_UNCLOSED: return "a ring is not closed";
    default: return "no number of this library";
    }
}

/* Reads a text and prepares its plan in tables that have room for it. Gives the refusal number, and says which line or table it names. */
static size_t prepare_text(prepared_plan *plan, const char *text, size_t node_rows) {
    const uint8_t *bytes = (const uint8_t *)text;
    int64_t corners[2 * CORNERS];
    size_t lengths[RINGS], counts[POLYGONS];
    findspot_reading reading =
        findspot_read_plan(bytes, strlen(text), corners, 2 * CORNERS, lengths, RINGS, counts, POLYGONS);
    if (reading.refusal == FINDSPOT_REFUSED_BAD_LINE) {
        findspot_span line = findspot_line(bytes, strlen(text), reading.detail);
        printf("line %d is \"%.*s\"\n", (int)reading.detail, (int)line.length, text + line.offset);
    }
    if (reading.refusal != FINDSPOT_ACCEPTED) return reading.refusal;
    printf("%d corners, %d rings, %d polygons: %d nodes\n", (int)reading.corners, (int)reading.rings,
           (int)reading.polygons, (int)findspot_node_count(reading.corners));
    findspot_preparing preparing =
        findspot_prepare(reading.kind, corners, 2 * reading.corners, lengths, reading.rings, counts, reading.polygons,
                         plan->corners, 2 * CORNERS, plan->rings, RINGS, plan->polygons, POLYGONS, plan->boxes,
                         node_rows, plan->parts, node_rows, plan->edges, CORNERS);
    if (preparing.table == FINDSPOT_TABLE_NODES) printf("boxes or parts have %d rows\n", (int)node_rows);
    plan->state = preparing.state;
    return preparing.refusal;
}

/* The place through the boxes, which is that of the rings too. */
static const char *place(const prepared_plan *plan, int64_t x, int64_t y) {
    int64_t through_boxes =
        findspot_locate(plan->state, plan->corners, 2 * CORNERS, plan->rings, RINGS, plan->polygons, POLYGONS,
                        plan->boxes, NODES, plan->parts, NODES, plan->edges, CORNERS, x, y);
    int64_t by_rings = findspot_locate_by_rings(plan->state, plan->corners, 2 * CORNERS, plan->rings, RINGS,
                                                plan->polygons, POLYGONS, x, y);
    return through_boxes == by_rings ? place_name(through_boxes) : "not alike";
}

/* The same on the half-grid, of twice the point. */
static const char *doubled_place(const prepared_plan *plan, int64_t x, int64_t y) {
    int64_t through_boxes =
        findspot_locate_doubled(plan->state, plan->corners, 2 * CORNERS, plan->rings, RINGS, plan->polygons,
                                POLYGONS, plan->boxes, NODES, plan->parts, NODES, plan->edges, CORNERS, x, y);
    int64_t by_rings = findspot_locate_doubled_by_rings(plan->state, plan->corners, 2 * CORNERS, plan->rings, RINGS,
                                                        plan->polygons, POLYGONS, x, y);
    return through_boxes == by_rings ? place_name(through_boxes) : "not alike";
}

static void show(const char *title, const prepared_plan *plan) {
    printf("%s:\n", title);
    for (size_t i = 0; i < POINT_NUMBERS; i += 2)
        printf("  (%d, %d) %s\n", (int)points[i], (int)points[i + 1], place(plan, points[i], points[i + 1]));
    findspot_first first = findspot_first_not_outside(
        plan->state, plan->corners, 2 * CORNERS, plan->rings, RINGS, plan->polygons, POLYGONS, plan->boxes, NODES,
        plan->parts, NODES, plan->edges, CORNERS, points, POINT_NUMBERS);
    if (first.refusal == FINDSPOT_ACCEPTED && first.found)
        printf("  the first that is not outside: %d\n", (int)first.place);
}

static size_t move(prepared_plan *plan, size_t corner, int64_t x, int64_t y) {
    findspot_correction moved =
        findspot_move(plan->state, plan->corners, 2 * CORNERS, plan->rings, RINGS, plan->boxes, NODES, plan->parts,
                      NODES, plan->edges, CORNERS, plan->undo, MOVES, corner, x, y);
    plan->state = moved.state;
    return moved.refusal;
}

static size_t undo(prepared_plan *plan) {
    findspot_correction undone =
        findspot_undo(plan->state, plan->corners, 2 * CORNERS, plan->rings, RINGS, plan->boxes, NODES, plan->parts,
                      NODES, plan->edges, CORNERS, plan->undo, MOVES);
    plan->state = undone.state;
    return undone.refusal;
}

int main(void) {
    static prepared_plan plan;
    printf("%s\n", refusal_name(prepare_text(&plan, "plan\nouter\nat\t0\n", NODES)));
    printf("%s\n", refusal_name(prepare_text(&plan, two_polygons, 0)));
    printf("%s\n", refusal_name(prepare_text(&plan, two_polygons, NODES)));

    show("as prepared", &plan);
    printf("(3.5, 4.5) %s\n", doubled_place(&plan, 7, 9));
    printf("(4, 4.5) %s\n", doubled_place(&plan, 8, 9));

    printf("move corner 2: %s\n", refusal_name(move(&plan, 2, 20, 20)));
    show("corner 2 at (20, 20)", &plan);
    printf("move corner 11: %s\n", refusal_name(move(&plan, 11, 0, 0)));
    printf("undo: %s\n", refusal_name(undo(&plan)));
    show("and back", &plan);
    printf("undo: %s\n", refusal_name(undo(&plan)));
    return 0;
}
