/* Writes a data file as comma-separated text to stdout, for a spreadsheet: a line of names, and a line for each record before the first fault.
 *
 *     cc -I include examples/c/export.c target/staticlib/libzarfolin.a -o export
 *     ./export examples/counter/survey.sss examples/counter/survey.asc >survey.csv
 *
 * How long the text is the library alone knows: where the room was too little (60), it is asked again with more.
 *
 * Exit status: 0 done; 1 the data has a fault, and the lines before it were written; 2 the definition is refused; 64 usage; 66 a file can't
 * be read, or is longer than the room here; 70 the archive is of another version than the header; 71 no memory. */
#include <inttypes.h>
#include <stdio.h>
#include <stdlib.h>
#include "zarfolin.h"

static uint8_t def[ZARFOLIN_MAX_DEFINITION + 1], data[1 << 26];
static int64_t table[ZARFOLIN_MAX_TABLE];

static size_t load(const char *name, uint8_t *room, size_t size) {
    FILE *file = fopen(name, "rb");
    const size_t length = file == NULL ? 0 : fread(room, 1, size, file);
    if (file == NULL || ferror(file)) {
        perror(name);
        exit(66);
    }
    if (length == size && room == data) {
        fprintf(stderr, "%s: too long for this example\n", name);
        exit(66);
    }
    fclose(file);
    return length;
}

int main(int argc, char **argv) {
    int64_t answer[ZARFOLIN_EXPORT_ANSWER];
    if (argc != 3) {
        fprintf(stderr, "usage: export DEFINITION DATA\n");
        return 64;
    }
    if (zarfolin_version() != ZARFOLIN_VERSION) {
        fprintf(stderr, "export: compiled for version %d of the library, linked with another\n", ZARFOLIN_VERSION);
        return 70;
    }
    const size_t def_len = load(argv[1], def, sizeof def), length = load(argv[2], data, sizeof data);
    zarfolin_number number = zarfolin_read_definition(def, def_len, table, ZARFOLIN_MAX_TABLE, answer);
    if (number != ZARFOLIN_OK) {
        fprintf(stderr, "%s: byte %" PRId64 ": %s [%" PRIu64 "]\n", argv[1], answer[1], zarfolin_message(number), number);
        return 2;
    }
    uint8_t *out = NULL;
    size_t room = length + 4096;
    do {
        room *= 2;
        free(out);
        out = malloc(room);
        if (out == NULL) {
            fprintf(stderr, "export: no memory\n");
            return 71;
        }
        number = zarfolin_export(def, def_len, table, ZARFOLIN_MAX_TABLE, data, length, out, room, answer);
    } while (number == ZARFOLIN_E_EXPORT_ROOM);
    fwrite(out, 1, (size_t)answer[4], stdout);
    free(out);
    if (number != ZARFOLIN_OK) {
        fprintf(stderr, "%s: record %" PRId64 ": %s [%" PRIu64 "]\n", argv[2], answer[1], zarfolin_message(number), number);
        return 1;
    }
    fprintf(stderr, "%" PRId64 " records\n", answer[1]);
    return 0;
}
