/* Reads comma-separated text back into records, to stdout: a corrected spreadsheet, exported by export.c before.
 *
 *     cc -I include examples/c/import.c target/staticlib/libzarfolin.a -o import
 *     ./import examples/counter/survey.sss examples/counter/survey.csv >survey.asc
 *
 * A record for each line behind the names, so that as many records with their CR LF as the text has LF are room enough.
 *
 * Exit status: 0 done; 1 the text is refused, and nothing was written; 2 the definition is refused, or gives a byte to two variables; 64
 * usage; 66 a file can't be read, or is longer than the room here; 70 the archive is of another version than the header; 71 no memory. */
#include <inttypes.h>
#include <stdio.h>
#include <stdlib.h>
#include "zarfolin.h"

static uint8_t def[ZARFOLIN_MAX_DEFINITION + 1], text[1 << 26];
static int64_t table[ZARFOLIN_MAX_TABLE];

static size_t load(const char *name, uint8_t *room, size_t size) {
    FILE *file = fopen(name, "rb");
    const size_t length = file == NULL ? 0 : fread(room, 1, size, file);
    if (file == NULL || ferror(file)) {
        perror(name);
        exit(66);
    }
    if (length == size && room == text) {
        fprintf(stderr, "%s: too long for this example\n", name);
        exit(66);
    }
    fclose(file);
    return length;
}

int main(int argc, char **argv) {
    int64_t answer[ZARFOLIN_ANSWER];
    if (argc != 3) {
        fprintf(stderr, "usage: import DEFINITION TEXT\n");
        return 64;
    }
    if (zarfolin_version() != ZARFOLIN_VERSION) {
        fprintf(stderr, "import: compiled for version %d of the library, linked with another\n", ZARFOLIN_VERSION);
        return 70;
    }
    const size_t def_len = load(argv[1], def, sizeof def), length = load(argv[2], text, sizeof text);
    zarfolin_number number = zarfolin_read_definition(def, def_len, table, ZARFOLIN_MAX_TABLE, answer);
    if (number != ZARFOLIN_OK) {
        fprintf(stderr, "%s: byte %" PRId64 ": %s [%" PRIu64 "]\n", argv[1], answer[1], zarfolin_message(number), number);
        return 2;
    }
    size_t lines = 0;
    for (size_t i = 0; i < length; i++) {
        lines += text[i] == '\n';
    }
    const size_t room = lines * ((size_t)table[ZARFOLIN_H_RECORD] + 2) + 1;
    uint8_t *out = malloc(room);
    if (out == NULL) {
        fprintf(stderr, "import: no memory\n");
        return 71;
    }
    number = zarfolin_import(def, def_len, table, ZARFOLIN_MAX_TABLE, text, length, out, room, answer);
    if (number == ZARFOLIN_OK) {
        fwrite(out, 1, (size_t)answer[2], stdout);
        fprintf(stderr, "%" PRId64 " records\n", answer[1]);
    } else if (number == ZARFOLIN_E_SHARED) {
        fprintf(stderr, "%s: %s [%" PRIu64 "]\n", argv[1], zarfolin_message(number), number);
    } else {
        fprintf(stderr, "%s: line %" PRId64 ", column %" PRId64 ": %s [%" PRIu64 "]\n", argv[2], answer[1], answer[2],
                zarfolin_message(number), number);
    }
    free(out);
    return number == ZARFOLIN_OK ? 0 : number == ZARFOLIN_E_SHARED ? 2 : 1;
}
