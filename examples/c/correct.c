/* Corrects a data file: takes corrections from stdin, a line each, and writes the file with them to stdout. Corrections of one record
 * that stand together are one call, which tests the table once. What is refused is told on stderr; the others are done.
 *
 *     cc -I include examples/c/correct.c target/staticlib/libzarfolin.a -o correct
 *     echo '2 0 1 3' | ./correct examples/counter/survey.sss examples/counter/survey.asc >corrected.asc
 *
 * A line is RECORD ROW KIND NUMBER: the record from 1; the row from 0, since a variable goes by its row and never by its name; the kind
 * 0 missing, 1 number, 4 truth; the number scaled as the table has it, -275 for -2.75.
 *
 * Exit status: 0 all are done; 1 some were refused; 2 the definition is refused; 64 usage, or a line of another form; 66 a file can't
 * be read, or is longer than the room here; 70 the archive is of another version than the header. */
#include <inttypes.h>
#include <stdio.h>
#include <stdlib.h>
#include "zarfolin.h"

enum { LIST = 512 };

static uint8_t def[ZARFOLIN_MAX_DEFINITION + 1], data[1 << 24];
static int64_t table[ZARFOLIN_MAX_TABLE];
static struct zarfolin_correction list[LIST];

static size_t load(const char *name, uint8_t *room, size_t size) {
    FILE *file = fopen(name, "rb");
    const size_t length = file == NULL ? 0 : fread(room, 1, size, file);
    if (file == NULL || ferror(file)) {
        perror(name);
        exit(66);
    }
    if (length == size && room == data) {
        fprintf(stderr, "%s: too long for this example\n", name);
        exit(66);
    }
    fclose(file);
    return length;
}

/* Corrects record n by the first `count` of the list; answers how many were refused. */
static size_t correct(size_t length, uint64_t n, size_t count) {
    int64_t cut[ZARFOLIN_ANSWER] = {0, 0, 0, 0};
    uint64_t found = ZARFOLIN_RECORD;
    for (uint64_t i = 0; i < n && found != ZARFOLIN_NO_RECORD; i++) {
        found = zarfolin_next_record(data, length, (uint64_t)cut[3], cut);
    }
    if (n == 0 || found == ZARFOLIN_NO_RECORD) {
        fprintf(stderr, "record %" PRIu64 ": there is no such record\n", n);
        return count;
    }
    const zarfolin_number whole =
        zarfolin_correct(table, ZARFOLIN_MAX_TABLE, list, count, data + cut[1], (size_t)(cut[2] - cut[1]));
    size_t refused = 0;
    for (size_t i = 0; i < count; i++) {
        const zarfolin_number number = whole == ZARFOLIN_OK ? list[i].mark : whole;
        if (number != ZARFOLIN_OK) {
            fprintf(stderr, "record %" PRIu64 ", row %" PRIu64 ": %s [%" PRIu64 "]\n", n, list[i].row, zarfolin_message(number), number);
            refused++;
        }
    }
    return refused;
}

int main(int argc, char **argv) {
    int64_t answer[ZARFOLIN_ANSWER];
    if (argc != 3) {
        fprintf(stderr, "usage: correct DEFINITION DATA <CORRECTIONS\n");
        return 64;
    }
    if (zarfolin_version() != ZARFOLIN_VERSION) {
        fprintf(stderr, "correct: compiled for version %d of the library, linked with another\n", ZARFOLIN_VERSION);
        return 70;
    }
    const size_t def_len = load(argv[1], def, sizeof def), length = load(argv[2], data, sizeof data);
    const zarfolin_number number = zarfolin_read_definition(def, def_len, table, ZARFOLIN_MAX_TABLE, answer);
    if (number != ZARFOLIN_OK) {
        fprintf(stderr, "%s: byte %" PRId64 ": %s [%" PRIu64 "]\n", argv[1], answer[1], zarfolin_message(number), number);
        return 2;
    }
    uint64_t record = 0, next;
    size_t count = 0, refused = 0;
    struct zarfolin_correction c = {0};
    int got;
    while ((got = scanf("%" SCNu64 "%" SCNu64 "%" SCNu64 "%" SCNd64, &next, &c.row, &c.value.kind, &c.value.number)) == 4) {
        if (count > 0 && (next != record || count == LIST)) {
            refused += correct(length, record, count);
            count = 0;
        }
        record = next;
        list[count++] = c;
    }
    refused += count > 0 ? correct(length, record, count) : 0;
    if (got != EOF) {
        fprintf(stderr, "correct: a line is RECORD ROW KIND NUMBER\n");
        return 64;
    }
    fwrite(data, 1, length, stdout);
    return refused > 0;
}
