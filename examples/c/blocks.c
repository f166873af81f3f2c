/* Judges a data file of any length, a block at a time: in memory stand one block, and a record that it ends without.
 *
 *     cc -I include examples/c/blocks.c target/staticlib/libzarfolin.a -o blocks
 *     ./blocks examples/counter/survey.sss examples/counter/survey.asc
 *
 * Exit status: as examples/c/judge.c, 0 all is sound; 1 the data has a fault; 2 the definition is refused; 64 usage; 66 a
 * file can't be read; 70 the archive is of another version than the header. */
#include <inttypes.h>
#include <stdio.h>
#include <stdlib.h>
#include <string.h>
#include "zarfolin.h"

static FILE *file;
static uint8_t *room;
static size_t size = 1 << 20, held;

static void fail(const char *name) {
    perror(name);
    exit(66);
}

/* Fills the room behind what is held, a longer one where it is full. Answers whether the file is at its end. */
static int fill(const char *name) {
    size = held == size ? 2 * size : size;
    room = realloc(room, size);
    if (room == NULL) {
        fail(name);
    }
    held += fread(room + held, 1, size - held, file);
    if (ferror(file)) {
        fail(name);
    }
    return feof(file);
}

static void open_file(const char *name) {
    file = fopen(name, "rb");
    held = 0;
    if (file == NULL) {
        fail(name);
    }
}

int main(int argc, char **argv) {
    static int64_t table[ZARFOLIN_MAX_TABLE];
    int64_t answer[ZARFOLIN_ANSWER], before = 0;
    uint64_t terminator = 0, first = 0, ends = 0;
    zarfolin_number number;
    if (argc != 3) {
        fprintf(stderr, "usage: blocks DEFINITION DATA\n");
        return 64;
    }
    if (zarfolin_version() != ZARFOLIN_VERSION) {
        fprintf(stderr, "blocks: compiled for version %d of the library, linked with another\n", ZARFOLIN_VERSION);
        return 70;
    }
    for (open_file(argv[1]); !fill(argv[1]);) {}
    number = zarfolin_read_definition(room, held, table, ZARFOLIN_MAX_TABLE, answer);
    if (number != ZARFOLIN_OK) {
        printf("%s: byte %" PRId64 ": %s [%" PRIu64 "]\n", argv[1], answer[1], zarfolin_message(number), number);
        return 2;
    }
    open_file(argv[2]);
    for (int last = 0; !last && number == ZARFOLIN_OK;) {
        last = fill(argv[2]);
        /* The first record's end settles the terminator; a lone CR or LF at the end of a block may be half of a pair. */
        if (ends == 0 && zarfolin_next_record(room, held, 0, answer) == ZARFOLIN_RECORD &&
            (answer[3] - answer[2] == 2 || (size_t)answer[3] < held || last)) {
            first = (uint64_t)answer[2], ends = (uint64_t)(answer[3] - answer[2]);
            terminator = room[first] == '\r' ? (ends == 2 ? ZARFOLIN_CR_LF : ZARFOLIN_CR) : (ends == 2 ? ZARFOLIN_LF_CR : ZARFOLIN_LF);
        }
        if (ends != 0) {
            number = zarfolin_judge_part(table, ZARFOLIN_MAX_TABLE, room, held, terminator, first, (uint64_t)last, answer);
            const size_t done = number == ZARFOLIN_OK ? (size_t)answer[1] * (first + ends) : 0;
            answer[1] += before, before = answer[1];
            memmove(room, room + done, held -= done);
        } else if (last) {
            number = zarfolin_judge_file(table, ZARFOLIN_MAX_TABLE, room, held, answer);
        }
    }
    if (number == ZARFOLIN_OK) {
        printf("%s: %" PRId64 " records, all sound\n", argv[2], answer[1]);
        return 0;
    }
    printf("%s: record %" PRId64 ": %s [%" PRIu64 "]\n", argv[2], answer[1], zarfolin_message(number), number);
    return 1;
}
