/* Judges a survey: the definition, then every record of the data, up to the first fault, which it says in words.
 *
 *     cc -I include examples/c/judge.c target/staticlib/libzarfolin.a -o judge
 *     ./judge examples/counter/survey.sss examples/counter/survey.asc
 *
 * Exit status: 0 all is sound; 1 the data has a fault; 2 the definition is refused; 64 usage; 66 a file can't be read;
 * 70 the archive is of another version than the header. */
#include <inttypes.h>
#include <stdio.h>
#include <stdlib.h>
#include "zarfolin.h"

/* A whole file in memory, which nobody else changes; never NULL, also for an empty file. It is freed when the program ends. */
static uint8_t *whole(const char *name, size_t *length) {
    FILE *file = fopen(name, "rb");
    uint8_t *bytes = NULL;
    size_t room = 0, got;
    *length = 0;
    do {
        uint8_t *more = realloc(bytes, room = room * 2 + 65536);
        if (file == NULL || more == NULL) {
            perror(name);
            exit(66);
        }
        bytes = more;
        *length += got = fread(bytes + *length, 1, room - 1 - *length, file);
    } while (got != 0);
    if (ferror(file)) {
        perror(name);
        exit(66);
    }
    fclose(file);
    return bytes;
}

/* The line of a place in a text, from 1. */
static int line_of(const uint8_t *text, int64_t place) {
    int line = 1;
    for (int64_t i = 0; i < place; i++) {
        line += text[i] == '\n';
    }
    return line;
}

int main(int argc, char **argv) {
    static int64_t table[ZARFOLIN_MAX_TABLE];
    int64_t answer[ZARFOLIN_ANSWER];
    size_t def_len, data_len;
    if (argc != 3) {
        fprintf(stderr, "usage: judge DEFINITION DATA\n");
        return 64;
    }
    if (zarfolin_version() != ZARFOLIN_VERSION) {
        fprintf(stderr, "judge: compiled for version %d of the library, linked with another\n", ZARFOLIN_VERSION);
        return 70;
    }
    const uint8_t *def = whole(argv[1], &def_len), *data = whole(argv[2], &data_len);
    zarfolin_number number = zarfolin_read_definition(def, def_len, table, ZARFOLIN_MAX_TABLE, answer);
    if (number != ZARFOLIN_OK) {
        printf("%s:%d: byte %" PRId64 ": %s [%" PRIu64 "]\n", argv[1], line_of(def, answer[1]), answer[1],
               zarfolin_message(number), number);
        return 2;
    }
    number = zarfolin_judge_file(table, ZARFOLIN_MAX_TABLE, data, data_len, answer);
    if (number == ZARFOLIN_OK) {
        printf("%s: %" PRId64 " records, all sound\n", argv[2], answer[1]);
        return 0;
    }
    printf("%s: record %" PRId64, argv[2], answer[1]);
    if (number == ZARFOLIN_E_STRAY || number == ZARFOLIN_E_NOT_LEGAL || number == ZARFOLIN_E_POINT) {
        const int64_t *row = zarfolin_row(table, (size_t)answer[2]);
        printf(", variable %" PRId64 " \"%.*s\", columns %" PRId64 " to %" PRId64, row[ZARFOLIN_IDENT],
               (int)row[ZARFOLIN_NAME_LENGTH], (const char *)def + row[ZARFOLIN_NAME], row[ZARFOLIN_START], row[ZARFOLIN_FINISH]);
        printf(number == ZARFOLIN_E_NOT_LEGAL ? ", number %" PRId64 : ", column %" PRId64, answer[3] + (number != ZARFOLIN_E_NOT_LEGAL));
    } else if (number == ZARFOLIN_E_LOW_BYTE) {
        printf(", column %" PRId64, answer[3] + 1);
    }
    printf(": %s [%" PRIu64 "]\n", zarfolin_message(number), number);
    return 1;
}
