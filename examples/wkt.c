/* Well-Known Text as a server in C takes it: a file is read and prepared, asked and corrected, and the corrected plan is written back.
 *
 *     tools/build capi
 *     cc -Iinclude examples/wkt.c target/staticlib/libcapi.a -o target/wkt && target/wkt
 *
 * It is C11, and C++ as it stands. It finds its file from the repository's root.
 */
#include <stdio.h>
#include <string.h>

#include "findspot.h"

/* The longest text, and room for whatever it holds, so that no table is too short. NODES is `findspot_node_count(CORNERS)`. */
enum { TEXT = 65536, CORNERS = TEXT / 4, RINGS = TEXT / 10, POLYGONS = TEXT / 12, NODES = 4095, MOVES = 16 };

/* Two polygons, the first with a hole, and an empty member, spaced as PostGIS does. */
static const char *const file_name = "examples/trench.wkt";

/* A plan as it is read. */
typedef struct {
    int64_t corners[2 * CORNERS];
    size_t lengths[RINGS], counts[POLYGONS];
} read_plan;

/* The tables that are lent, with the state that goes with them. */
typedef struct {
    findspot_state state;
    int64_t corners[2 * CORNERS];
    size_t rings[RINGS], polygons[POLYGONS];
    int64_t boxes[4 * NODES];
    size_t parts[3 * NODES], edges[CORNERS];
    int64_t undo[3 * MOVES];
} prepared_plan;

static const int64_t points[] = {5, 5, 4, 5, 1, 5, 12, 12, 31, 1};
enum { POINT_NUMBERS = sizeof points / sizeof points[0] };

static const char *place_name(int64_t answer) {
    switch (answer) {
    case FINDSPOT_OUTSIDE: return "outside";
    case FINDSPOT_INSIDE: return "inside";
    case FINDSPOT_BOUNDARY: return "boundary";
    default: return "refused";
    }
}

/* Reads the file and gives the text's length. The grammar has no line end, so that of a last line is cut off. */
static size_t read_file(uint8_t *text, size_t room) {
    FILE *file = fopen(file_name, "rb");
    if (file == NULL) {
        fprintf(stderr, "%s is not there: run this in the repository's root\n", file_name);
        return 0;
    }
    size_t length = fread(text, 1, room, file);
    fclose(file);
    return length > 0 && text[length - 1] == '\n' ? length - 1 : length;
}

static findspot_wkt_reading read_text(read_plan *plan, const uint8_t *text, size_t length) {
    return findspot_read_wkt(text, length, plan->corners, 2 * CORNERS, plan->lengths, RINGS, plan->counts, POLYGONS);
}

static size_t prepare(prepared_plan *plan, const read_plan *read, findspot_wkt_reading size) {
    findspot_preparing preparing =
        findspot_prepare(FINDSPOT_LIST, read->corners, 2 * size.corners, read->lengths, size.rings, read->counts,
                         size.polygons, plan->corners, 2 * CORNERS, plan->rings, RINGS, plan->polygons, POLYGONS,
                         plan->boxes, NODES, plan->parts, NODES, plan->edges, CORNERS);
    plan->state = preparing.state;
    return preparing.refusal;
}

static size_t move(prepared_plan *plan, size_t corner, int64_t x, int64_t y) {
    findspot_correction moved =
        findspot_move(plan->state, plan->corners, 2 * CORNERS, plan->rings, RINGS, plan->boxes, NODES, plan->parts,
                      NODES, plan->edges, CORNERS, plan->undo, MOVES, corner, x, y);
    plan->state = moved.state;
    return moved.refusal;
}

/* Writes the plan with its corners as they now stand. The lengths and counts are those that were read: corrections leave them. */
static findspot_wkt_writing write_text(const prepared_plan *plan, const read_plan *read, uint8_t *output) {
    return findspot_write_wkt(plan->state.kind, plan->corners, 2 * plan->state.corners, read->lengths, plan->state.rings,
                              read->counts, plan->state.polygons, output, TEXT);
}

static void show(const char *title, const prepared_plan *plan) {
    printf("%s:\n", title);
    for (size_t i = 0; i < POINT_NUMBERS; i += 2) {
        int64_t place =
            findspot_locate(plan->state, plan->corners, 2 * CORNERS, plan->rings, RINGS, plan->polygons, POLYGONS,
                            plan->boxes, NODES, plan->parts, NODES, plan->edges, CORNERS, points[i], points[i + 1]);
        printf("  (%d, %d) %s\n", (int)points[i], (int)points[i + 1], place_name(place));
    }
}

/* Whether a text, read, is the plan as it now stands. */
static int is_plan(const prepared_plan *plan, const read_plan *read, const uint8_t *text, size_t length) {
    static read_plan again;
    findspot_wkt_reading size = read_text(&again, text, length);
    return size.refusal == FINDSPOT_ACCEPTED && size.corners == plan->state.corners && size.rings == plan->state.rings &&
           size.polygons == plan->state.polygons &&
           memcmp(again.corners, plan->corners, 2 * size.corners * sizeof again.corners[0]) == 0 &&
           memcmp(again.lengths, read->lengths, size.rings * sizeof again.lengths[0]) == 0 &&
           memcmp(again.counts, read->counts, size.polygons * sizeof again.counts[0]) == 0;
}

/* Says how a text is refused: off the grammar with the byte at which it leaves it, else by the number alone. */
static void show_refused(const char *text) {
    static read_plan unread;
    findspot_wkt_reading reading = read_text(&unread, (const uint8_t *)text, strlen(text));
    printf("%s: refused with %zu", text, reading.refusal);
    if (reading.refusal == FINDSPOT_REFUSED_OFF_GRAMMAR) printf(" at byte %zu", reading.detail);
    printf("\n");
}

int main(void) {
    /* With a line end and one byte more, so that a longer text is seen to be too long. */
    static uint8_t text[TEXT + 2], output[TEXT];
    static read_plan read;
    static prepared_plan plan;
    findspot_wkt_reading size = read_text(&read, text, read_file(text, sizeof text));
    if (size.refusal != FINDSPOT_ACCEPTED || prepare(&plan, &read, size) != FINDSPOT_ACCEPTED) return 1;
    printf("%zu corners, %zu rings, %zu polygons\n", size.corners, size.rings, size.polygons);
    show("as read", &plan);

    if (move(&plan, 2, 20, 20) != FINDSPOT_ACCEPTED) return 1;
    show("corner 2 moved to (20, 20)", &plan);

    findspot_wkt_writing written = write_text(&plan, &read, output);
    if (written.refusal != FINDSPOT_ACCEPTED) return 1;
    printf("%.*s\n", (int)written.length, (const char *)output);
    printf("read again, it is the same plan: %s\n", is_plan(&plan, &read, output, written.length) ? "true" : "false");

    show_refused("POLYGON ((0 0, 10 0, 10.5 10, 0 0))");
    show_refused("POLYGON ((0 0, 10 0, 10 10))");
    return 0;
}
