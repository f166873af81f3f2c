/* Writes a definition anew, clean, to stdout: a statement a line, in one order, every width stated, comments and notes left out.
 *
 *     cc -I include examples/c/clean.c target/staticlib/libzarfolin.a -o clean
 *     ./clean examples/clean/odd.sss >clean.sss
 *
 * The clean text says the same: its table differs in the places and lengths of texts alone, and cleaned again it comes out as it is.
 *
 * Exit status: 0 done; 2 the definition is refused, as one in XML is, or its clean text would be too long; 64 usage; 66 the file can't
 * be read; 70 the archive is of another version than the header; 74 the text can't be written. */
#include <inttypes.h>
#include <stdio.h>
#include "zarfolin.h"

static uint8_t def[ZARFOLIN_MAX_DEFINITION + 1], out[ZARFOLIN_MAX_DEFINITION];
static int64_t table[ZARFOLIN_MAX_TABLE];

int main(int argc, char **argv) {
    int64_t answer[ZARFOLIN_ANSWER];
    if (argc != 2) {
        fprintf(stderr, "usage: clean DEFINITION\n");
        return 64;
    }
    if (zarfolin_version() != ZARFOLIN_VERSION) {
        fprintf(stderr, "clean: compiled for version %d of the library, linked with another\n", ZARFOLIN_VERSION);
        return 70;
    }
    FILE *file = fopen(argv[1], "rb");
    const size_t length = file == NULL ? 0 : fread(def, 1, sizeof def, file);
    if (file == NULL || ferror(file)) {
        perror(argv[1]);
        return 66;
    }
    fclose(file);
    zarfolin_number number = zarfolin_read_definition(def, length, table, ZARFOLIN_MAX_TABLE, answer);
    if (number == ZARFOLIN_OK) {
        /* Neither 40 can come, since this is its table, nor 42, since no clean text is longer than out. */
        number = zarfolin_write_definition(def, length, table, ZARFOLIN_MAX_TABLE, out, sizeof out, answer);
    }
    if (number != ZARFOLIN_OK) {
        fprintf(stderr, "%s: byte %" PRId64 ": %s [%" PRIu64 "]\n", argv[1], answer[1], zarfolin_message(number), number);
        return 2;
    }
    if (fwrite(out, 1, (size_t)answer[2], stdout) != (size_t)answer[2] || fflush(stdout) != 0) {
        perror("clean");
        return 74;
    }
    fprintf(stderr, "%zu bytes, clean %" PRId64 "\n", length, answer[2]);
    return 0;
}
