/* Writes the records of a survey in their normal form: two that say the same have the same bytes afterwards, filler aside.
 *
 *     cc -I include examples/c/normal.c target/staticlib/libzarfolin.a -o normal
 *     ./normal examples/counter/survey.sss examples/counter/survey.asc
 *
 * Each record goes to standard output with the terminator it had. A record that is refused goes there as it is, and its number and
 * what is wrong to standard error.
 *
 * Exit status: 0 all have their normal form; 1 some were refused; 2 the definition is refused; 64 usage; 66 a file can't be read, or is
 * longer than the room here; 70 the archive is of another version than the header. */
#include <inttypes.h>
#include <stdio.h>
#include <stdlib.h>
#include "zarfolin.h"

static uint8_t def[ZARFOLIN_MAX_DEFINITION + 1], data[1 << 24];
static int64_t table[ZARFOLIN_MAX_TABLE];

static size_t load(const char *name, uint8_t *room, size_t size) {
    FILE *file = fopen(name, "rb");
    const size_t length = file == NULL ? 0 : fread(room, 1, size, file);
    if (file == NULL || ferror(file)) {
        perror(name);
        exit(66);
    }
    if (length == size && room == data) {
        fprintf(stderr, "%s: too long for this example\n", name);
        exit(66);
    }
    fclose(file);
    return length;
}

int main(int argc, char **argv) {
    int64_t answer[ZARFOLIN_ANSWER], at[ZARFOLIN_ANSWER] = {0, 0, 0, 0};
    int refused = 0;
    if (argc != 3) {
        fprintf(stderr, "usage: normal DEFINITION DATA\n");
        return 64;
    }
    if (zarfolin_version() != ZARFOLIN_VERSION) {
        fprintf(stderr, "normal: compiled for version %d of the library, linked with another\n", ZARFOLIN_VERSION);
        return 70;
    }
    const size_t def_len = load(argv[1], def, sizeof def), data_len = load(argv[2], data, sizeof data);
    zarfolin_number number = zarfolin_read_definition(def, def_len, table, ZARFOLIN_MAX_TABLE, answer);
    if (number != ZARFOLIN_OK) {
        fprintf(stderr, "%s: byte %" PRId64 ": %s [%" PRIu64 "]\n", argv[1], answer[1], zarfolin_message(number), number);
        return 2;
    }
    for (int64_t record = 1; zarfolin_next_record(data, data_len, (uint64_t)at[3], at) != ZARFOLIN_NO_RECORD; record++) {
        number = zarfolin_normal(table, ZARFOLIN_MAX_TABLE, data + at[1], (size_t)(at[2] - at[1]), answer);
        if (number != ZARFOLIN_OK) {
            fprintf(stderr, "%s: record %" PRId64 ": %s [%" PRIu64 "]\n", argv[2], record, zarfolin_message(number), number);
            refused = 1;
        }
        fwrite(data + at[1], 1, (size_t)(at[3] - at[1]), stdout);
    }
    return refused;
}
