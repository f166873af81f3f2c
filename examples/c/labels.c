/* Lists the variables of a definition, of either kind: ident, name and label of each, as they read. A new line in a label, {NL} or in
 * XML <br/>, goes on in the next line; a byte below 32, as {0A} is, is none and is shown as a point.
 *
 *     cc -I include examples/c/labels.c target/staticlib/libzarfolin.a -o labels
 *     ./labels <examples/counter/survey.sss
 *
 * Exit status: 0 listed; 2 the definition is refused; 70 the archive is of another version than the header. */
#include <inttypes.h>
#include <stdio.h>
#include "zarfolin.h"

/* Shows a text by its place and length in the table: one of the definition that the table was read from is never refused, and has at
 * most as many signs as bytes, in XML twice as many. */
static void show(const uint8_t *def, size_t def_len, int64_t place, int64_t length) {
    static int64_t signs[2 * ZARFOLIN_MAX_DEFINITION];
    int64_t answer[ZARFOLIN_ANSWER];
    zarfolin_decode_text(def, def_len, (uint64_t)place, (uint64_t)length, signs, 2 * ZARFOLIN_MAX_DEFINITION, answer);
    for (int64_t i = 0; i < answer[1]; i++) {
        if (signs[i] == ZARFOLIN_BREAK) {
            printf("\n      ");
        } else {
            putchar(signs[i] < 32 ? '.' : (int)signs[i]);
        }
    }
}

int main(void) {
    static uint8_t def[ZARFOLIN_MAX_DEFINITION + 1];
    static int64_t table[ZARFOLIN_MAX_TABLE];
    int64_t answer[ZARFOLIN_ANSWER];
    if (zarfolin_version() != ZARFOLIN_VERSION) {
        fprintf(stderr, "labels: compiled for version %d of the library, linked with another\n", ZARFOLIN_VERSION);
        return 70;
    }
    const size_t def_len = fread(def, 1, sizeof def, stdin);
    const zarfolin_number number = zarfolin_read_definition(def, def_len, table, ZARFOLIN_MAX_TABLE, answer);
    if (number != ZARFOLIN_OK) {
        printf("byte %" PRId64 ": %s [%" PRIu64 "]\n", answer[1], zarfolin_message(number), number);
        return 2;
    }
    for (size_t i = 0; i < (size_t)table[ZARFOLIN_H_VARIABLES]; i++) {
        const int64_t *row = zarfolin_row(table, i);
        printf("%4" PRId64 "  ", row[ZARFOLIN_IDENT]);
        show(def, def_len, row[ZARFOLIN_NAME], row[ZARFOLIN_NAME_LENGTH]);
        printf(": ");
        show(def, def_len, row[ZARFOLIN_LABEL], row[ZARFOLIN_LABEL_LENGTH]);
        printf("\n");
    }
    return 0;
}
