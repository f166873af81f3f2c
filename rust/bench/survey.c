/* Instructions of one warm call of each kind on a survey of issue 30's generator: survey DEFINITION DATA.
 * Counted by callgrind on x86-64 (rust/bench/survey), or by the emulator with count.c elsewhere. docs/BENCHMARKS.md has the figures. */
#define _GNU_SOURCE
#include "zarfolin.h"
#include <stdio.h>
#include <string.h>
#include <sys/syscall.h>
#include <unistd.h>
#if __has_include(<valgrind/callgrind.h>)
#include <valgrind/callgrind.h>
#define MARK(name) CALLGRIND_DUMP_STATS_AT(name)
#define TOGGLE CALLGRIND_TOGGLE_COLLECT
#else
#define MARK(name) (void)(name)
#define TOGGLE (void)0
#endif

enum { COUNT = 0x7a61, LIST = 1000000, ROOM = 40000000, MANY = 100 };
static int ends[2];
static uint8_t def[2000000], data[4000000], mail[8000000], record[20000], out[ROOM], csv[ROOM];
static int64_t table[ZARFOLIN_MAX_TABLE], own[ZARFOLIN_MAX_TABLE], answer[8], list[LIST], values[ZARFOLIN_ANSWER * ZARFOLIN_MAX_VARIABLES];
static struct zarfolin_correction corrections[MANY];

/* What count.c says; 0 where nothing counts so. */
static uint64_t count(void) {
    uint64_t x = 0;
    syscall(COUNT, ends[1]);
    return read(ends[0], &x, sizeof x) == sizeof x ? x : 0;
}

static size_t load(const char *path, uint8_t *to, size_t most) {
    FILE *file = fopen(path, "rb");
    size_t n = file ? fread(to, 1, most, file) : 0;
    if (file) fclose(file);
    return n;
}

/* The data as mail might leave it, as rust/plain/examples/count.rs makes it. */
static size_t damage(size_t data_len, size_t length) {
    size_t n = 0;
    for (size_t i = 0; i * (length + 2) < data_len; i++) {
        static const char *const endings[] = {"\r\n", "\n", "\n\r\n\r", "\r"};
        size_t here = length - (i % 2 ? 5 + i % 3 : 0);
        memcpy(mail + n, data + i * (length + 2), here);
        for (size_t k = i % 40; k < here; k += 100) mail[n + k] = (uint8_t)(k % 10);
        n += here;
        n += (size_t)sprintf((char *)mail + n, "%s", endings[i % 4]);
    }
    return n;
}

/* A call made warm, and once more to be counted: the least of three by count.c, or one by callgrind. */
#define MEASURE(name, before, call)                                                                                    \
    do {                                                                                                               \
        uint64_t least = ~(uint64_t)0, none = count();                                                                 \
        none = count() - none;                                                                                         \
        for (int i = 0; i < 3; i++) {                                                                                  \
            before;                                                                                                    \
            uint64_t from = count();                                                                                   \
            if (i == 2) TOGGLE;                                                                                        \
            call;                                                                                                      \
            if (i == 2) TOGGLE;                                                                                        \
            uint64_t to = count() - from;                                                                              \
            if (to < least) least = to;                                                                                \
        }                                                                                                              \
        MARK(name);                                                                                                    \
        if (none) printf("%-16s %llu\n", name, (unsigned long long)(least - none));                                    \
    } while (0)

int main(int n, char **words) {
    if (n != 3 || pipe2(ends, 04000) != 0) return 2;
    size_t def_len = load(words[1], def, sizeof def), data_len = load(words[2], data, sizeof data), length = 0;
    size_t most = ZARFOLIN_MAX_TABLE, room = sizeof values / sizeof *values;
    if (zarfolin_read_definition(def, def_len, table, most, answer) != 0) return 1;
    size_t rows = (size_t)table[1], short_len;
    while (length < data_len && data[length] != 13) length++;
    short_len = (length + 2) * (rows > 500 ? 25 : rows > 50 ? 200 : 400);
    size_t mail_len = damage(data_len, length);
    MEASURE("read_definition", , zarfolin_read_definition(def, def_len, own, most, answer));
    MEASURE("write_definition", , zarfolin_write_definition(def, def_len, table, most, out, ROOM, answer));
    MEASURE("judge_record", , zarfolin_judge_record(table, most, data, length, answer));
    MEASURE("judge_file", , zarfolin_judge_file(table, most, data, data_len, answer));
    for (uint64_t row = 0; row < 6; row++) MEASURE("read_value", , zarfolin_read_value(table, most, row, data, length, list, LIST, answer));
    memcpy(record, data, length);
    MEASURE("write_number", , zarfolin_write_number(table, most, 0, 3, record, length));
    int64_t set[] = {1, 3, 5};
    MEASURE("write_set", , zarfolin_write_set(table, most, 1, set, 3, record, length));
    MEASURE("write_set", , zarfolin_write_set(table, most, 2, set, 3, record, length));
    MEASURE("write_number", , zarfolin_write_number(table, most, 3, 1234, record, length));
    MEASURE("write_text", , zarfolin_write_text(table, most, 4, (const uint8_t *)"words", 5, record, length));
    MEASURE("write_truth", , zarfolin_write_truth(table, most, 5, 1, record, length));
    MEASURE("write_missing", , zarfolin_write_missing(table, most, 0, record, length));
    MEASURE("read_record", , zarfolin_read_record(table, most, data, length, values, room, list, LIST, answer));
    MEASURE("normal", memcpy(record, data, length), zarfolin_normal(table, most, record, length, answer));
    for (size_t i = 0; i < MANY; i++) {
        static const struct zarfolin_correction kinds[] = {{0, {1, 3}, 9}, {0, {0, 0}, 9}, {0, {0, 0}, 9}, {0, {1, 1234}, 9}, {0, {0, 0}, 9}, {0, {4, 1}, 9}};
        corrections[i] = kinds[i % rows % 6];
        corrections[i].row = i % rows;
    }
    MEASURE("correct", , zarfolin_correct(table, most, corrections, MANY, record, length));
    MEASURE("judge_part", , zarfolin_judge_part(table, most, data, data_len, 1, length, 1, answer));
    MEASURE("mend", , zarfolin_mend(table, most, data, data_len, out, ROOM, list, LIST, answer));
    MEASURE("mend_damaged", , zarfolin_mend(table, most, mail, mail_len, out, ROOM, list, LIST, answer));
    MEASURE("matrix", , zarfolin_matrix(table, most, data, short_len, out, ROOM, answer));
    MEASURE("export", , zarfolin_export(def, def_len, table, most, data, data_len, csv, sizeof csv, answer));
    size_t csv_len = (size_t)answer[4];
    MEASURE("import", , zarfolin_import(def, def_len, table, most, csv, csv_len, out, ROOM, answer));
    if (answer[0] != 0) return 1;
    return 0;
}
