/* Writes a data file as a matrix of 64-bit floats to stdout, and tells each column's count, smallest and largest value on stderr.
 *
 *     cc -I include examples/c/matrix.c target/staticlib/libzarfolin.a -o matrix
 *     ./matrix examples/counter/survey.sss examples/counter/survey.asc >survey.matrix
 *
 * The largest matrix has ZARFOLIN_MAX_MATRIX bytes: with so much room the library never says 82.
 *
 * Exit status: 0 done; 1 the data has a fault, or makes too many bytes; 2 the definition is refused, or has no column; 64 usage; 66 a file
 * can't be read, or is longer than the room here; 70 the archive is of another version than the header. */
#include <inttypes.h>
#include <stdio.h>
#include <stdlib.h>
#include <string.h>
#include "zarfolin.h"

static uint8_t def[ZARFOLIN_MAX_DEFINITION + 1], data[1 << 26], out[ZARFOLIN_MAX_MATRIX];
static int64_t table[ZARFOLIN_MAX_TABLE];

static size_t load(const char *name, uint8_t *room, size_t size) {
    FILE *file = fopen(name, "rb");
    const size_t length = file == NULL ? 0 : fread(room, 1, size, file);
    if (file == NULL || ferror(file)) {
        perror(name);
        exit(66);
    }
    if (length == size && room == data) {
        fprintf(stderr, "%s: too long for this example\n", name);
        exit(66);
    }
    fclose(file);
    return length;
}

/* A little-endian number of 64 bits, on whatever machine. */
static uint64_t eight(const uint8_t *at) {
    uint64_t number = 0;
    for (int i = 7; i >= 0; i--) {
        number = number << 8 | at[i];
    }
    return number;
}

static double real(const uint8_t *at) {
    const uint64_t bits = eight(at);
    double value;
    memcpy(&value, &bits, sizeof value);
    return value;
}

int main(int argc, char **argv) {
    int64_t answer[ZARFOLIN_ANSWER];
    if (argc != 3) {
        fprintf(stderr, "usage: matrix DEFINITION DATA\n");
        return 64;
    }
    if (zarfolin_version() != ZARFOLIN_VERSION) {
        fprintf(stderr, "matrix: compiled for version %d of the library, linked with another\n", ZARFOLIN_VERSION);
        return 70;
    }
    const size_t def_len = load(argv[1], def, sizeof def), length = load(argv[2], data, sizeof data);
    zarfolin_number number = zarfolin_read_definition(def, def_len, table, ZARFOLIN_MAX_TABLE, answer);
    if (number != ZARFOLIN_OK) {
        fprintf(stderr, "%s: byte %" PRId64 ": %s [%" PRIu64 "]\n", argv[1], answer[1], zarfolin_message(number), number);
        return 2;
    }
    number = zarfolin_matrix(table, ZARFOLIN_MAX_TABLE, data, length, out, sizeof out, answer);
    if (number != ZARFOLIN_OK) {
        /* 80 is the definition's fault and 81 the file's as a whole: neither names a record. */
        if (number == ZARFOLIN_E_NO_COLUMN || number == ZARFOLIN_E_MATRIX_SIZE) {
            fprintf(stderr, "%s: %s [%" PRIu64 "]\n", argv[number == ZARFOLIN_E_NO_COLUMN ? 1 : 2], zarfolin_message(number), number);
        } else {
            fprintf(stderr, "%s: record %" PRId64 ": %s [%" PRIu64 "]\n", argv[2], answer[1], zarfolin_message(number), number);
        }
        return number == ZARFOLIN_E_NO_COLUMN ? 2 : 1;
    }
    for (int64_t k = 0; k < answer[3]; k++) {
        const uint8_t *const summary = out + 24 + 24 * k;
        fprintf(stderr, "column %" PRId64 ": %" PRIu64 " of %" PRId64 ", %g to %g\n", k, eight(summary), answer[2], real(summary + 8),
                real(summary + 16));
    }
    fwrite(out, 1, (size_t)answer[1], stdout);
    return 0;
}
