/* The stack of each write by what is written, to which kind of row, in which table; and of the other calls on a record.
 *
 * Each call runs on a stack of its own that was painted before; what is no longer as it was painted was used. An empty call is
 * measured in the same way and taken off, and each is run twice, so that the dynamic linker has bound memset before it counts.
 * Prints a table; a measure, not a test (docs/landings/C-12.md has its figures).
 *
 *     cc -O2 -I include tests/c/write_stack.c target/staticlib/libzarfolin.a -o write_stack && ./write_stack
 */
#define _GNU_SOURCE
#include "zarfolin.h"

#include <stdio.h>
#include <string.h>
#include <ucontext.h>

enum { STACK = 1 << 19, PAINT = 0xa5, RECORD = 2048 };

static uint8_t stack[STACK] __attribute__((aligned(64)));
static ucontext_t home, away;

static int64_t table[ZARFOLIN_MAX_TABLE];
static uint8_t record[RECORD + 2];
static int64_t list[40], out[9999], answer[4];
static size_t list_len;
static uint64_t row;
static volatile zarfolin_number got;

#define TABLE table, sizeof table / sizeof table[0]
#define WHOLE record, RECORD
static void nothing(void) { got = 0; }
static void write_missing(void) { got = zarfolin_write_missing(TABLE, row, WHOLE); }
static void write_number(void) { got = zarfolin_write_number(TABLE, row, 5, WHOLE); }
static void write_minus(void) { got = zarfolin_write_number(TABLE, row, -5, WHOLE); }
static void write_truth(void) { got = zarfolin_write_truth(TABLE, row, 1, WHOLE); }
static void write_text(void) { got = zarfolin_write_text(TABLE, row, (const uint8_t *)"abc", 3, WHOLE); }
static void write_set(void) { got = zarfolin_write_set(TABLE, row, list, list_len, WHOLE); }
static void read_value(void) { got = zarfolin_read_value(TABLE, row, WHOLE, out, 9999, answer); }
static void judge_record(void) { got = zarfolin_judge_record(TABLE, WHOLE, answer); }
static void judge_file(void) { got = zarfolin_judge_file(TABLE, record, RECORD + 2, answer); }
static void judge_part(void) { got = zarfolin_judge_part(TABLE, record, RECORD + 2, ZARFOLIN_CR_LF, RECORD, 1, answer); }
static void next_record(void) { got = zarfolin_next_record(record, RECORD + 2, 0, answer); }

static void (*to_run)(void);
static void run(void) { to_run(); }

static size_t touched(void (*call)(void)) {
    memset(stack, PAINT, STACK);
    to_run = call;
    getcontext(&away);
    away.uc_stack.ss_sp = stack;
    away.uc_stack.ss_size = STACK;
    away.uc_link = &home;
    makecontext(&away, run, 0);
    swapcontext(&home, &away);
    size_t clean = 0;
    while (clean < STACK && stack[clean] == PAINT) {
        clean++;
    }
    return STACK - clean;
}

static size_t used(void (*call)(void)) {
    touched(nothing);
    const size_t base = touched(nothing);
    touched(call);
    return touched(call) - base;
}

/* The rows of the tables, in their order. */
static const char *const rows[] = {
    "SINGLE POSITION 1 TO 3 VALUES 1 TO 12 END VALUES",
    "QUANTITY POSITION 4 TO 12 VALUES -10.0 TO 99.5 END VALUES",
    "LOGICAL POSITION 13",
    "CHARACTER POSITION 14 TO 20 SIZE 5",
    "MULTIPLE POSITION 21 TO 30 VALUES 1 \"a\" 2 \"b\" 9 \"c\" END VALUES",
    "MULTIPLE POSITION 31 TO 530 VALUES 1 TO 3 WITH 500 \"a\" END VALUES",
    "MULTIPLE POSITION 531 TO 540 SPREAD 5 OF 2 VALUES 1 TO 20 END VALUES",
    "MULTIPLE POSITION 541 TO 640 SPREAD 50 OF 2 VALUES ",
};
enum { ROWS = sizeof rows / sizeof rows[0], LINES = 30 };

/* A table whose numbers rise, or whose last row has its 30 values falling. */
static int make(int falling) {
    static char text[8192];
    size_t n = (size_t)sprintf(text, "SSS VERSION 1.1 SURVEY RECORD R ");
    for (int v = 0; v < ROWS; v++) {
        n += (size_t)sprintf(text + n, "VARIABLE %d NAME \"v\" LABEL \"l\" TYPE %s", v + 1, rows[v]);
        for (int i = 0; v == ROWS - 1 && i < LINES; i++) {
            n += (size_t)sprintf(text + n, "%d \"t\" ", falling ? LINES - i : i + 1);
        }
        n += (size_t)sprintf(text + n, "%s END VARIABLE ", v == ROWS - 1 ? "END VALUES" : "");
    }
    n += (size_t)sprintf(text + n, "END RECORD END SURVEY END SSS");
    return zarfolin_read_definition((const uint8_t *)text, n, TABLE, answer) == 0;
}

static const struct {
    const char *what;
    void (*call)(void);
    uint64_t row;
    size_t members;
} cases[] = {
    {"missing, SINGLE", write_missing, 0, 0},
    {"missing, QUANTITY", write_missing, 1, 0},
    {"missing, LOGICAL", write_missing, 2, 0},
    {"missing, CHARACTER", write_missing, 3, 0},
    {"missing, bitstring of 9", write_missing, 4, 0},
    {"missing, bitstring of 500", write_missing, 5, 0},
    {"missing, spread", write_missing, 6, 0},
    {"number, SINGLE", write_number, 0, 0},
    {"number, QUANTITY", write_number, 1, 0},
    {"number below 0, QUANTITY", write_minus, 1, 0},
    {"truth", write_truth, 2, 0},
    {"text", write_text, 3, 0},
    {"set, bitstring of 9", write_set, 4, 2},
    {"set, bitstring of 500", write_set, 5, 3},
    {"set, spread, 2 members", write_set, 6, 2},
    {"set, spread, 30 members", write_set, 7, 30},
    {"read value, SINGLE", read_value, 0, 0},
    {"read value, spread", read_value, 7, 0},
    {"judge record", judge_record, 0, 0},
    {"judge file", judge_file, 0, 0},
    {"judge part", judge_part, 0, 0},
    {"next record", next_record, 0, 0},
};

int main(void) {
    static size_t bytes[2][sizeof cases / sizeof cases[0]];
    for (int falling = 0; falling < 2; falling++) {
        if (!make(falling)) {
            fprintf(stderr, "the definition was refused: %d at %d\n", (int)answer[0], (int)answer[1]);
            return 1;
        }
        for (size_t i = 0; i < sizeof cases / sizeof cases[0]; i++) {
            memset(record, ' ', RECORD);
            memcpy(record + RECORD, "\r\n", 2);
            for (int64_t k = 0; k < 40; k++) {
                list[k] = k + 1;
            }
            row = cases[i].row;
            list_len = cases[i].members;
            bytes[falling][i] = used(cases[i].call);
            if (cases[i].call != next_record && got != 0) {
                fprintf(stderr, "%s was refused: %d\n", cases[i].what, (int)got);
                return 1;
            }
        }
    }
    int status = 0;
    printf("%-26s %10s %14s\n", "bytes of stack", "all rise", "30 values fall");
    for (size_t i = 0; i < sizeof cases / sizeof cases[0]; i++) {
        printf("%-26s %10zu %14zu\n", cases[i].what, bytes[0][i], bytes[1][i]);
        /* rows 0 to 3 are no MULTIPLE: what C-12 promises of them */
        const int plain = cases[i].row < 4 && (cases[i].call == write_missing || cases[i].call == write_number ||
                                               cases[i].call == write_minus || cases[i].call == write_truth || cases[i].call == write_text);
        if (plain && bytes[0][i] > ZARFOLIN_STACK_WRITE_PLAIN) {
            printf("%s: more than %d\n", cases[i].what, ZARFOLIN_STACK_WRITE_PLAIN);
            status = 1;
        }
    }
    return status;
}
