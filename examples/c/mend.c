/* Mends a damaged data file: writes it to stdout with one terminator, one length and no byte below 32, and tells each change on stderr.
 *
 *     cc -I include examples/c/mend.c target/staticlib/libzarfolin.a -o mend
 *     ./mend examples/counter/survey.sss damaged.asc >mended.asc
 *
 * No room has to be guessed: output and list are first lent as long as the data, and made longer while the library says 70.
 *
 * Exit status: 0 the file was sound; 1 it was mended; 2 the definition is refused; 64 usage; 66 a file can't be read, or is longer than
 * the room here; 70 the archive is of another version than the header; 71 there is no memory for the mended file. */
#include <inttypes.h>
#include <stdio.h>
#include <stdlib.h>
#include "zarfolin.h"

static uint8_t def[ZARFOLIN_MAX_DEFINITION + 1], data[1 << 24];
static int64_t table[ZARFOLIN_MAX_TABLE];

static size_t load(const char *name, uint8_t *room, size_t size) {
    FILE *file = fopen(name, "rb");
    const size_t length = file == NULL ? 0 : fread(room, 1, size, file);
    if (file == NULL || ferror(file)) {
        perror(name);
        exit(66);
    }
    if (length == size && room == data) {
        fprintf(stderr, "%s: too long for this example\n", name);
        exit(66);
    }
    fclose(file);
    return length;
}

static void tell(const int64_t *entry) {
    static const char *const words[] = {"", "an empty record is dropped", "a space for a byte below 32", "padded with spaces", "the file's terminator"};
    fprintf(stderr, "byte %" PRId64 ", record %" PRId64 ": %s\n", entry[2], entry[1], words[entry[0]]);
}

int main(int argc, char **argv) {
    int64_t answer[ZARFOLIN_ANSWER];
    if (argc != 3) {
        fprintf(stderr, "usage: mend DEFINITION DATA\n");
        return 64;
    }
    if (zarfolin_version() != ZARFOLIN_VERSION) {
        fprintf(stderr, "mend: compiled for version %d of the library, linked with another\n", ZARFOLIN_VERSION);
        return 70;
    }
    const size_t def_len = load(argv[1], def, sizeof def), length = load(argv[2], data, sizeof data);
    zarfolin_number number = zarfolin_read_definition(def, def_len, table, ZARFOLIN_MAX_TABLE, answer);
    if (number != ZARFOLIN_OK) {
        fprintf(stderr, "%s: byte %" PRId64 ": %s [%" PRIu64 "]\n", argv[1], answer[1], zarfolin_message(number), number);
        return 2;
    }
    uint8_t *out = NULL;
    int64_t *list = NULL;
    for (size_t room = length + ZARFOLIN_MAX_LOCATION;; room *= 2) {
        free(out), free(list);
        out = malloc(room);
        list = malloc(room * sizeof *list);
        if (out == NULL || list == NULL) {
            fprintf(stderr, "%s: no memory for the mended file\n", argv[2]);
            return 71;
        }
        number = zarfolin_mend(table, ZARFOLIN_MAX_TABLE, data, length, out, room, list, room, answer);
        if (number != ZARFOLIN_E_MEND_ROOM) {
            break;
        }
    }
    for (int64_t i = 0; i < answer[2]; i++) {
        tell(list + ZARFOLIN_MENDED * i);
    }
    fwrite(out, 1, (size_t)answer[1], stdout);
    free(out), free(list);
    return answer[2] > 0;
}
