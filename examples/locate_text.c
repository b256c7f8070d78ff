/* A square with a square hole, asked from C at four points, and a text that is refused.
 *
 *     tools/build capi
 *     cc -Iinclude examples/locate_text.c target/staticlib/libcapi.a -o target/locate_text && target/locate_text
 */
#include <stdio.h>
#include <string.h>

#include "findspot.h"

static const char *const square_with_hole =
    "plan\tlist\n"
    "outer\nat\t0\t0\nat\t10\t0\nat\t10\t10\nat\t0\t10\n"
    "hole\nat\t4\t4\nat\t6\t4\nat\t6\t6\nat\t4\t6\n";

static const char *name(int64_t answer) {
    switch (answer) {
    case FINDSPOT_OUTSIDE: return "outside";
    case FINDSPOT_INSIDE: return "inside";
    case FINDSPOT_BOUNDARY: return "boundary";
    case FINDSPOT_TEXT_TOO_LONG: return "refused: the text is too long";
    case FINDSPOT_BAD_LINE: return "refused: a line breaks the format";
    default: return "no answer of this library";
    }
}

static void ask(const char *text, int64_t x, int64_t y) {
    int64_t answer = findspot_locate_text((const uint8_t *)text, strlen(text), x, y);
    printf("(%d, %d) %s\n", (int)x, (int)y, name(answer));
}

int main(void) {
    ask(square_with_hole, 5, 5);
    ask(square_with_hole, 4, 5);
    ask(square_with_hole, 1, 5);
    ask(square_with_hole, 11, 5);
    ask("plan\nhole\n", 1, 5);
    return 0;
}
