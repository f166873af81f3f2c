/* A test of the face for C: every call of the library once and more, with each answer checked, and every name of the header that
 * an answer bears out. Ends with status 1 at the first surprise. rust/test compiles and runs it; by hand:
 *
 *     cc -Wall -Wextra -Werror -I include tests/c/face.c target/staticlib/libzarfolin.a -o face && ./face
 */
#include "zarfolin.h"

#include <inttypes.h>
#include <stdio.h>
#include <stdlib.h>
#include <string.h>

static int checks = 0;

#define CHECK(condition)                                                          \
    do {                                                                          \
        checks++;                                                                 \
        if (!(condition)) {                                                       \
            fprintf(stderr, "%s:%d: not so: %s\n", __FILE__, __LINE__, #condition); \
            exit(1);                                                              \
        }                                                                         \
    } while (0)

static const char definition[] =
    "SSS VERSION 1.1 <a registry's counter> SURVEY RECORD R\r\n"
    "VARIABLE 1 NAME \"desk\" LABEL \"Desk\" TYPE SINGLE POSITION 1 TO 2\r\n"
    "VALUES 1 TO 12 END VALUES END VARIABLE\r\n"
    "VARIABLE 2 NAME \"seen\" LABEL \"Seen\" TYPE MULTIPLE POSITION 3 TO 6\r\n"
    "VALUES 1 \"a\" 2 \"b\" 4 \"d\" SPECIAL END VALUES END VARIABLE\r\n"
    "VARIABLE 3 NAME \"wait\" LABEL \"Wait\" TYPE QUANTITY POSITION 7 TO 11\r\n"
    "VALUES -1.0 TO 99.5 END VALUES END VARIABLE\r\n"
    "VARIABLE 4 NAME \"word\" LABEL \"Word\" TYPE CHARACTER POSITION 12 TO 16 SIZE 5 END VARIABLE\r\n"
    "VARIABLE 5 NAME \"back\" LABEL \"Back\" TYPE LOGICAL POSITION 17 END VARIABLE\r\n"
    "VARIABLE 6 NAME \"two\" LABEL \"Two\" TYPE MULTIPLE POSITION 18 TO 21 SPREAD 2 OF 2\r\n"
    "VALUES 1 TO 20 END VALUES END VARIABLE\r\n"
    "END RECORD END SURVEY END SSS\r\n";

static int64_t table[ZARFOLIN_MAX_TABLE];
static size_t table_len;

static const uint8_t *bytes(const char *text) { return (const uint8_t *)text; }

static int is(const int64_t *answer, int64_t a, int64_t b, int64_t c, int64_t d) {
    return answer[0] == a && answer[1] == b && answer[2] == c && answer[3] == d;
}

static void definitions(void) {
    int64_t answer[4];
    const size_t length = sizeof definition - 1;

    /* Too little room: refused with 10, and the table is as it was. */
    int64_t small[3] = {7, 8, 9};
    CHECK(zarfolin_read_definition(bytes(definition), length, small, 3, answer) == ZARFOLIN_E_TABLE_ROOM);
    CHECK(is(answer, 10, 0, 0, 0));
    CHECK(small[0] == 7 && small[1] == 8 && small[2] == 9);

    /* A text that breaks off: 2 at its end. */
    CHECK(zarfolin_read_definition(bytes("SSS VERSION 1.1"), 15, small, 3, answer) == ZARFOLIN_E_TOKEN);
    CHECK(is(answer, 2, 15, 0, 0));
    CHECK(zarfolin_read_definition(bytes("SSS VERSION 1.2"), 15, small, 3, answer) == ZARFOLIN_E_VERSION);
    CHECK(is(answer, 4, 12, 0, 0));

    table_len = ZARFOLIN_TABLE(6, 3);
    table[table_len] = 12345;
    CHECK(zarfolin_read_definition(bytes(definition), length, table, ZARFOLIN_MAX_TABLE, answer) == ZARFOLIN_OK);
    CHECK(is(answer, 0, 0, 6, 3));
    CHECK(table[table_len] == 12345);
    CHECK(table[ZARFOLIN_H_MARK] == ZARFOLIN_MARK && table[ZARFOLIN_H_VARIABLES] == 6 && table[ZARFOLIN_H_LINES] == 3);
    CHECK(table[ZARFOLIN_H_RECORD] == 21 && table[ZARFOLIN_H_ROWS_AT] == ZARFOLIN_HEADER);
    CHECK(table[ZARFOLIN_H_LINES_AT] == ZARFOLIN_TABLE(6, 0));

    /* A name as it stands in the definition, and a line. */
    const int64_t *row = zarfolin_row(table, 2);
    CHECK(row[ZARFOLIN_IDENT] == 3 && row[ZARFOLIN_TYPE] == ZARFOLIN_QUANTITY && row[ZARFOLIN_WIDTH] == 4);
    CHECK(row[ZARFOLIN_START] == 7 && row[ZARFOLIN_FINISH] == 11 && row[ZARFOLIN_POINT] == 1 && row[ZARFOLIN_RANGE] == 1);
    CHECK(row[ZARFOLIN_FROM] == -10 && row[ZARFOLIN_TO] == 995 && row[ZARFOLIN_DECIMALS] == 1);
    CHECK(row[ZARFOLIN_NAME_LENGTH] == 4 && memcmp(definition + row[ZARFOLIN_NAME], "wait", 4) == 0);
    CHECK(row[ZARFOLIN_LABEL_LENGTH] == 4 && memcmp(definition + row[ZARFOLIN_LABEL], "Wait", 4) == 0);
    CHECK(row[ZARFOLIN_LINES] == 0 && row[ZARFOLIN_LINES_BEFORE] == 3);
    const int64_t *spread = zarfolin_row(table, 5);
    CHECK(spread[ZARFOLIN_TYPE] == ZARFOLIN_MULTIPLE && spread[ZARFOLIN_SUBFIELDS] == 2 && spread[ZARFOLIN_SUBFIELD_WIDTH] == 2);
    CHECK(zarfolin_row(table, 0)[ZARFOLIN_TYPE] == ZARFOLIN_SINGLE && zarfolin_row(table, 3)[ZARFOLIN_TYPE] == ZARFOLIN_CHARACTER);
    CHECK(zarfolin_row(table, 4)[ZARFOLIN_TYPE] == ZARFOLIN_LOGICAL && zarfolin_row(table, 1)[ZARFOLIN_LINES] == 3);
    const int64_t *line = zarfolin_line(table, 2);
    CHECK(line[ZARFOLIN_LINE_VALUE] == 4 && line[ZARFOLIN_LINE_SPECIAL] == 1);
    CHECK(line[ZARFOLIN_LINE_TEXT_LENGTH] == 1 && definition[line[ZARFOLIN_LINE_TEXT]] == 'd');
}

static const char sound[] = " 710x1x-1.0ab   120 1";

static void readings(void) {
    int64_t answer[4];
    int64_t list[4] = {-1, -1, -1, -1};
    const uint8_t *record = bytes(sound);
    const size_t length = sizeof sound - 1;

    CHECK(zarfolin_read_value(table, table_len, 0, record, length, list, 4, answer) == ZARFOLIN_OK);
    CHECK(is(answer, 0, ZARFOLIN_IS_NUMBER, 7, 0));
    CHECK(zarfolin_read_value(table, table_len, 2, record, length, list, 4, answer) == ZARFOLIN_OK);
    CHECK(is(answer, 0, ZARFOLIN_IS_NUMBER, -10, 0));
    CHECK(zarfolin_read_value(table, table_len, 3, record, length, list, 4, answer) == ZARFOLIN_OK);
    CHECK(is(answer, 0, ZARFOLIN_IS_TEXT, 11, 2));
    CHECK(zarfolin_read_value(table, table_len, 4, record, length, list, 4, answer) == ZARFOLIN_OK);
    CHECK(is(answer, 0, ZARFOLIN_IS_TRUTH, 1, 0));
    CHECK(list[0] == -1 && list[1] == -1 && list[2] == -1 && list[3] == -1);

    CHECK(zarfolin_read_value(table, table_len, 1, record, length, list, 1, answer) == ZARFOLIN_E_LIST_ROOM);
    CHECK(is(answer, 25, 0, 0, 0) && list[0] == -1);
    CHECK(zarfolin_read_value(table, table_len, 1, record, length, list, 4, answer) == ZARFOLIN_OK);
    CHECK(is(answer, 0, ZARFOLIN_IS_SET, 2, 0));
    CHECK(list[0] == 1 && list[1] == 4 && list[2] == -1 && list[3] == -1);
    CHECK(zarfolin_read_value(table, table_len, 5, record, length, list, 4, answer) == ZARFOLIN_OK);
    CHECK(is(answer, 0, ZARFOLIN_IS_SET, 2, 0));
    CHECK(list[0] == 1 && list[1] == 20 && list[2] == -1);

    CHECK(zarfolin_read_value(table, table_len, 6, record, length, list, 4, answer) == ZARFOLIN_E_ROW);
    CHECK(zarfolin_read_value(table, table_len, 0, record, length - 1, list, 4, answer) == ZARFOLIN_E_SHORT);
    CHECK(zarfolin_read_value(table + 1, table_len - 1, 0, record, length, list, 4, answer) == ZARFOLIN_E_TABLE);
    CHECK(zarfolin_read_value(table, table_len, 0, bytes("7 10x1x-1.0ab   120 1"), length, list, 4, answer) == ZARFOLIN_E_STRAY);
    CHECK(is(answer, 241, 1, 0, 0));
    CHECK(zarfolin_read_value(table, table_len, 0, bytes("9910x1x-1.0ab   120 1"), length, list, 4, answer) == ZARFOLIN_E_NOT_LEGAL);
    CHECK(is(answer, 242, 99, 0, 0));
    CHECK(zarfolin_read_value(table, table_len, 2, bytes(" 710x1x-100ab   120 1"), length, list, 4, answer) == ZARFOLIN_E_POINT);
    CHECK(is(answer, 243, 9, 0, 0) && list[0] == 1 && list[1] == 20 && list[2] == -1);

    /* All rows at once: as one by one, but that a set says where it starts in the list. */
    int64_t out[ZARFOLIN_ANSWER * 6 + 1], all[5] = {-1, -1, -1, -1, -1};
    out[ZARFOLIN_ANSWER * 6] = -1;
    CHECK(zarfolin_read_record(table, table_len, record, length, out, ZARFOLIN_ANSWER * 6 - 1, all, 5, answer) == ZARFOLIN_E_LIST_ROOM);
    CHECK(zarfolin_read_record(table, table_len, record, length, out, ZARFOLIN_ANSWER * 6, all, 3, answer) == ZARFOLIN_E_LIST_ROOM);
    CHECK(is(answer, 25, 0, 0, 0) && all[0] == -1);
    CHECK(zarfolin_read_record(table, table_len, record, length - 1, out, ZARFOLIN_ANSWER * 6, all, 5, answer) == ZARFOLIN_E_SHORT);
    CHECK(zarfolin_read_record(table + 1, table_len - 1, record, length, out, ZARFOLIN_ANSWER * 6, all, 5, answer) == ZARFOLIN_E_TABLE);
    CHECK(zarfolin_read_record(table, table_len, record, length, out, ZARFOLIN_ANSWER * 6 + 1, all, 5, answer) == ZARFOLIN_OK);
    CHECK(is(answer, 0, 4, 0, 0) && out[ZARFOLIN_ANSWER * 6] == -1);
    CHECK(is(out, 0, ZARFOLIN_IS_NUMBER, 7, 0) && is(out + ZARFOLIN_ANSWER, 0, ZARFOLIN_IS_SET, 2, 0));
    CHECK(is(out + ZARFOLIN_ANSWER * 3, 0, ZARFOLIN_IS_TEXT, 11, 2) && is(out + ZARFOLIN_ANSWER * 5, 0, ZARFOLIN_IS_SET, 2, 2));
    CHECK(all[0] == 1 && all[1] == 4 && all[2] == 1 && all[3] == 20 && all[4] == -1);
    CHECK(zarfolin_read_record(table, table_len, bytes("7 10x1x-1.0ab   220 1"), length, out, ZARFOLIN_ANSWER * 6, all, 5, answer) == 0);
    CHECK(is(answer, 0, 4, 2, 0) && is(out, 241, 1, 0, 0) && is(out + ZARFOLIN_ANSWER * 4, 241, 16, 0, 0));

    CHECK(zarfolin_judge_record(table, table_len, record, length, answer) == ZARFOLIN_OK);
    CHECK(is(answer, 0, 0, 0, 0));
    CHECK(zarfolin_judge_record(table, table_len, bytes(" 710x1x-1.0a\tb  120 1"), length, answer) == ZARFOLIN_E_LOW_BYTE);
    CHECK(is(answer, 23, 12, 0, 0));
    CHECK(zarfolin_judge_record(table, table_len, bytes(" 710x1x-1.0ab   220 1"), length, answer) == ZARFOLIN_E_STRAY);
    CHECK(is(answer, 241, 4, 16, 0));
    CHECK(zarfolin_judge_record(table, table_len, bytes(" 710x1x99.9ab   220 1"), length, answer) == ZARFOLIN_E_NOT_LEGAL);
    CHECK(is(answer, 242, 2, 999, 0));

    /* The normal form: zeros in front of a number, a spread that rises; filler, bitstring, text and truth as they stand. */
    uint8_t form[64];
    memcpy(form, record, length);
    CHECK(zarfolin_normal(table, table_len, form, length, answer) == ZARFOLIN_OK && is(answer, 0, 0, 0, 0));
    CHECK(memcmp(form, "0710x1x-1.0ab   10120", length) == 0);
    CHECK(zarfolin_normal(table, table_len, form, length, answer) == ZARFOLIN_OK && memcmp(form, "0710x1x-1.0ab   10120", length) == 0);
    CHECK(zarfolin_normal(table, table_len, form, length - 1, answer) == ZARFOLIN_E_SHORT && is(answer, 22, 0, 0, 0));
    CHECK(zarfolin_normal(table + 1, table_len - 1, form, length, answer) == ZARFOLIN_E_TABLE && is(answer, 20, 0, 0, 0));
    memcpy(form, "0710x1x-1.0a\tb  10120", length);
    CHECK(zarfolin_normal(table, table_len, form, length, answer) == ZARFOLIN_E_LOW_BYTE && is(answer, 23, 12, 0, 0));
    memcpy(form, "7 10x1x-1.0ab   220 1", length);
    CHECK(zarfolin_normal(table, table_len, form, length, answer) == ZARFOLIN_E_STRAY && is(answer, 241, 0, 1, 0));
    CHECK(memcmp(form, "7 10x1x-1.0ab   220 1", length) == 0);

    /* Two rows that share a value place: 90, before a record that is too short, and the record is kept. */
    static int64_t other[ZARFOLIN_MAX_TABLE];
    static const char shared[] =
        "SSS VERSION 1.1 SURVEY RECORD R VARIABLE 1 NAME \"a\" LABEL \"A\" TYPE CHARACTER POSITION 1 TO 2 SIZE 2 END VARIABLE\n"
        "VARIABLE 2 NAME \"b\" LABEL \"B\" TYPE CHARACTER POSITION 2 TO 3 SIZE 2 END VARIABLE END RECORD END SURVEY END SSS";
    CHECK(zarfolin_read_definition(bytes(shared), sizeof shared - 1, other, ZARFOLIN_MAX_TABLE, answer) == ZARFOLIN_OK);
    memcpy(form, "a  ", 3);
    CHECK(zarfolin_normal(other, ZARFOLIN_MAX_TABLE, form, 3, answer) == ZARFOLIN_E_SHARED && is(answer, 90, 0, 0, 0));
    CHECK(zarfolin_normal(other, ZARFOLIN_MAX_TABLE, form, 2, answer) == ZARFOLIN_E_SHARED && is(answer, 90, 0, 0, 0));
    CHECK(memcmp(form, "a  ", 3) == 0);
    CHECK(zarfolin_judge_record(table, table_len, record, 3, answer) == ZARFOLIN_E_SHORT);
}

/* A label decoded, by the place and length that the table has of it: a new line is no byte 10. */
static void texts(void) {
    static const char labelled[] = "SSS VERSION 1.1 SURVEY RECORD R VARIABLE 1 NAME \"q\" LABEL \"a{NL}{0A}\r\n{\"}\" "
                                   "TYPE LOGICAL POSITION 1 END VARIABLE END RECORD END SURVEY END SSS";
    const size_t length = sizeof labelled - 1;
    int64_t answer[4];
    int64_t small[6 + ZARFOLIN_ROW];
    int64_t list[6] = {-1, -1, -1, -1, -1, -1};

    CHECK(zarfolin_read_definition(bytes(labelled), length, small, 6 + ZARFOLIN_ROW, answer) == 0);
    const uint64_t place = (uint64_t)small[6 + ZARFOLIN_LABEL];
    const uint64_t size = (uint64_t)small[6 + ZARFOLIN_LABEL_LENGTH];
    CHECK(zarfolin_decode_text(bytes(labelled), length, place, size, list, 3, answer) == 25);
    CHECK(is(answer, 25, 0, 0, 0) && list[0] == -1);
    CHECK(zarfolin_decode_text(bytes(labelled), length, place, size + 1, list, 6, answer) == 3);
    CHECK(zarfolin_decode_text(bytes(labelled), length, UINT64_MAX, 2, list, 6, answer) == 3);
    CHECK(is(answer, 3, 0, 0, 0) && list[0] == -1);
    CHECK(zarfolin_decode_text(bytes(labelled), length, place, size, list, 6, answer) == 0);
    CHECK(is(answer, 0, 4, 0, 0));
    CHECK(list[0] == 'a' && list[1] == ZARFOLIN_BREAK && list[2] == 10 && list[3] == '"' && list[4] == -1 && list[5] == -1);
}

static void writes(void) {
    uint8_t record[] = " 710x1x-1.0ab   120 1";
    const size_t length = sizeof record - 1;
    const int64_t set[] = {2, 4};
    const int64_t falling[] = {4, 2};
    const int64_t three[] = {1, 2, 3};

    CHECK(zarfolin_write_number(table, table_len, 0, 12, record, length) == ZARFOLIN_OK);
    CHECK(zarfolin_write_set(table, table_len, 1, set, 2, record, length) == ZARFOLIN_OK);
    CHECK(zarfolin_write_number(table, table_len, 2, 5, record, length) == ZARFOLIN_OK);
    CHECK(zarfolin_write_text(table, table_len, 3, bytes("c d"), 3, record, length) == ZARFOLIN_OK);
    CHECK(zarfolin_write_truth(table, table_len, 4, 0, record, length) == ZARFOLIN_OK);
    CHECK(zarfolin_write_set(table, table_len, 5, set, 2, record, length) == ZARFOLIN_OK);
    CHECK(memcmp(record, "1201x1x00.5c d  00204", length) == 0);

    CHECK(zarfolin_write_number(table, table_len, 0, 13, record, length) == ZARFOLIN_E_VALUE);
    CHECK(zarfolin_write_number(table, table_len, 1, 1, record, length) == ZARFOLIN_E_TYPE);
    CHECK(zarfolin_write_truth(table, table_len, 4, 2, record, length) == ZARFOLIN_E_VALUE);
    CHECK(zarfolin_write_truth(table, table_len, 0, 2, record, length) == ZARFOLIN_E_TYPE);
    CHECK(zarfolin_write_set(table, table_len, 1, falling, 2, record, length) == ZARFOLIN_E_VALUE);
    CHECK(zarfolin_write_set(table, table_len, 5, three, 3, record, length) == ZARFOLIN_E_MEMBERS);
    CHECK(zarfolin_write_text(table, table_len, 3, bytes("c "), 2, record, length) == ZARFOLIN_E_VALUE);
    CHECK(zarfolin_write_text(table, table_len, 6, bytes("c"), 1, record, length) == ZARFOLIN_E_ROW);
    CHECK(zarfolin_write_missing(table, table_len, 0, record, length - 1) == ZARFOLIN_E_SHORT);
    CHECK(memcmp(record, "1201x1x00.5c d  00204", length) == 0);

    for (uint64_t row = 0; row < 6; row++) {
        CHECK(zarfolin_write_missing(table, table_len, row, record, length) == ZARFOLIN_OK);
    }
    CHECK(memcmp(record, "    x x              ", length) == 0);
}

/* A list of corrections, each with the mark that it must get. */
static void corrections(void) {
    static const struct { struct zarfolin_correction given; uint64_t mark; } due[] = {
        {{0, {ZARFOLIN_IS_NUMBER, 12}, 99}, ZARFOLIN_OK},
        {{0, {ZARFOLIN_IS_NUMBER, 13}, 99}, ZARFOLIN_E_VALUE},
        {{2, {ZARFOLIN_IS_NUMBER, 5}, 99}, ZARFOLIN_OK},
        {{4, {ZARFOLIN_IS_TRUTH, 0}, 99}, ZARFOLIN_OK},
        {{4, {ZARFOLIN_IS_TRUTH, 256}, 99}, ZARFOLIN_E_VALUE},
        {{0, {ZARFOLIN_IS_TRUTH, -1}, 99}, ZARFOLIN_E_TYPE},
        {{3, {ZARFOLIN_MISSING, 7}, 99}, ZARFOLIN_OK},
        {{6, {ZARFOLIN_MISSING, 0}, 99}, ZARFOLIN_E_ROW},
        {{6, {UINT64_MAX, 0}, 99}, ZARFOLIN_E_ROW},
        {{1, {ZARFOLIN_IS_NUMBER, 1}, 99}, ZARFOLIN_E_TYPE},
        {{1, {ZARFOLIN_IS_SET, 1}, 99}, ZARFOLIN_E_TYPE},
        {{0, {ZARFOLIN_IS_NUMBER, 3}, 99}, ZARFOLIN_OK},
    };
    enum { COUNT = sizeof due / sizeof due[0] };
    struct zarfolin_correction list[COUNT + 1];
    uint8_t record[] = " 710x1x-1.0ab   120 1";
    const size_t length = sizeof record - 1;

    CHECK(sizeof(struct zarfolin_correction) == 32);
    for (size_t i = 0; i < COUNT; i++) {
        list[i] = due[i].given;
    }
    list[COUNT] = due[0].given;
    CHECK(zarfolin_correct(table, table_len, list, COUNT, record, length - 1) == ZARFOLIN_E_SHORT);
    CHECK(zarfolin_correct(table, table_len - 1, list, COUNT, record, length) == ZARFOLIN_E_TABLE);
    CHECK(zarfolin_correct(table, table_len, list, 0, record, length - 1) == ZARFOLIN_E_SHORT);
    CHECK(zarfolin_correct(table, table_len, list, 0, record, length) == ZARFOLIN_OK);
    CHECK(memcmp(record, sound, length) == 0 && list[0].mark == 99 && list[COUNT - 1].mark == 99);

    CHECK(zarfolin_correct(table, table_len, list, COUNT, record, length) == ZARFOLIN_OK);
    for (size_t i = 0; i < COUNT; i++) {
        CHECK(list[i].mark == due[i].mark && list[i].row == due[i].given.row);
        CHECK(list[i].value.kind == due[i].given.value.kind && list[i].value.number == due[i].given.value.number);
    }
    CHECK(list[COUNT].mark == 99);
    CHECK(memcmp(record, "0310x1x00.5     020 1", length) == 0);
}

static void files(void) {
    static const char good[] = " 710x1x-1.0ab   120 1\r\n    x x              \r\n";
    static const char open[] = " 710x1x-1.0ab   120 1\r\n    x x              ";
    static const char low[] = " 710x1x-1.0ab   120 1\n    x x        \r     \n";
    static const char uneven[] = " 710x1x-1.0ab   120 1\n    x x             \n";
    static const char illegal[] = " 710x1x-1.0ab   120 1\r12  x x              \r13  x x              \r";
    int64_t answer[4];

    CHECK(zarfolin_judge_file(table, table_len, bytes(good), sizeof good - 1, answer) == ZARFOLIN_OK);
    CHECK(is(answer, 0, 2, 0, 0));
    CHECK(zarfolin_judge_file(table, table_len, bytes(""), 0, answer) == ZARFOLIN_OK);
    CHECK(is(answer, 0, 0, 0, 0));
    CHECK(zarfolin_judge_file(table, table_len, bytes(open), sizeof open - 1, answer) == ZARFOLIN_E_UNENDED);
    CHECK(is(answer, 30, 2, 0, 0));
    CHECK(zarfolin_judge_file(table, table_len, bytes(uneven), sizeof uneven - 1, answer) == ZARFOLIN_E_LENGTH);
    CHECK(is(answer, 31, 2, 0, 0));
    CHECK(zarfolin_judge_file(table, table_len, bytes(low), sizeof low - 1, answer) == ZARFOLIN_E_LOW_BYTE);
    CHECK(is(answer, 23, 2, 0, 15));
    CHECK(zarfolin_judge_file(table, table_len, bytes(illegal), sizeof illegal - 1, answer) == ZARFOLIN_E_NOT_LEGAL);
    CHECK(is(answer, 242, 3, 0, 13));
    CHECK(zarfolin_judge_file(table, 5, bytes(good), sizeof good - 1, answer) == ZARFOLIN_E_TABLE);
    CHECK(is(answer, 20, 0, 0, 0));

    CHECK(zarfolin_next_record(bytes(good), sizeof good - 1, 0, answer) == ZARFOLIN_RECORD);
    CHECK(is(answer, 1, 0, 21, 23));
    CHECK(zarfolin_next_record(bytes(good), sizeof good - 1, (uint64_t)answer[3], answer) == ZARFOLIN_RECORD);
    CHECK(is(answer, 1, 23, 44, 46));
    CHECK(zarfolin_next_record(bytes(good), sizeof good - 1, (uint64_t)answer[3], answer) == ZARFOLIN_NO_RECORD);
    CHECK(is(answer, 0, 0, 0, 0));
    CHECK(zarfolin_next_record(bytes(open), sizeof open - 1, 23, answer) == ZARFOLIN_OPEN_RECORD);
    CHECK(is(answer, 2, 23, 44, 44));
}

/* Parts of files: a part's own answers, and a file cut at every place, whose parts give its own. */
static void parts(void) {
    static const char data[] = " 710x1x-1.0ab   120 1\r\n    x x              \r\n12  x x              \r\n";
    static const char field[] = " 710x1x-1.0ab   120 1\r\n13  x x              \r\n";
    const size_t length = sizeof data - 1;
    int64_t answer[4];

    CHECK(zarfolin_judge_part(table, table_len, bytes(data), length, ZARFOLIN_CR_LF, 21, 0, answer) == ZARFOLIN_OK);
    CHECK(is(answer, 0, 3, 0, 0));
    CHECK(zarfolin_judge_part(table, table_len, bytes(data), length - 1, ZARFOLIN_CR_LF, 21, 0, answer) == ZARFOLIN_OK);
    CHECK(is(answer, 0, 2, 0, 0));
    CHECK(zarfolin_judge_part(table, table_len, bytes(data), length - 1, ZARFOLIN_CR_LF, 21, 256, answer) == ZARFOLIN_E_UNENDED);
    CHECK(is(answer, 30, 3, 0, 0));
    CHECK(zarfolin_judge_part(table, table_len, bytes(data), length, ZARFOLIN_CR_LF, 20, 0, answer) == ZARFOLIN_E_LENGTH);
    CHECK(is(answer, 31, 1, 0, 0));
    CHECK(zarfolin_judge_part(table, table_len, bytes(data), length, ZARFOLIN_CR, 21, 0, answer) == ZARFOLIN_E_LENGTH);
    CHECK(is(answer, 31, 2, 0, 0));
    CHECK(zarfolin_judge_part(table, table_len, bytes("x\n"), 2, ZARFOLIN_LF, 1, 0, answer) == ZARFOLIN_E_SHORT);
    CHECK(is(answer, 22, 1, 0, 0));
    CHECK(zarfolin_judge_part(table, table_len, bytes(data), length, ZARFOLIN_LF, 22, 0, answer) == ZARFOLIN_E_LOW_BYTE);
    CHECK(is(answer, 23, 1, 0, 21));
    CHECK(zarfolin_judge_part(table, table_len, bytes(field), sizeof field - 1, ZARFOLIN_CR_LF, 21, 1, answer) == ZARFOLIN_E_NOT_LEGAL);
    CHECK(is(answer, 242, 2, 0, 13));
    CHECK(zarfolin_judge_part(table, table_len, bytes(""), 0, ZARFOLIN_LF_CR, 21, 1, answer) == ZARFOLIN_OK);
    CHECK(is(answer, 0, 0, 0, 0));
    CHECK(zarfolin_judge_part(table, table_len, bytes(data), length, 0, 21, 1, answer) == ZARFOLIN_E_TERMINATOR);
    CHECK(zarfolin_judge_part(table, table_len, bytes(data), length, 257, 21, 1, answer) == ZARFOLIN_E_TERMINATOR);
    CHECK(is(answer, 29, 0, 0, 0));
    CHECK(zarfolin_judge_part(table, 5, bytes(data), length, 5, 21, 1, answer) == ZARFOLIN_E_TABLE);
    CHECK(is(answer, 20, 0, 0, 0));

    for (size_t stop = 0; stop <= length; stop++) {
        CHECK(zarfolin_judge_part(table, table_len, bytes(data), stop, ZARFOLIN_CR_LF, 21, 0, answer) == ZARFOLIN_OK);
        const int64_t count = answer[1];
        const size_t done = (size_t)count * (21 + 2);
        CHECK(zarfolin_judge_part(table, table_len, bytes(data) + done, length - done, ZARFOLIN_CR_LF, 21, 1, answer) == ZARFOLIN_OK);
        CHECK(count + answer[1] == 3);
    }
}

/* A damaged file mended, with room, with just enough and with too little; and mended again, which changes nothing. */
static void mends(void) {
    static const char data[] = "\n 710x1x-1.0ab\r 710x1x-1.0ab\t  120 1\r\n\n\n 710x1x-1.0ab   12001";
    static const char due[] = " 710x1x-1.0ab        \n 710x1x-1.0ab   120 1\n 710x1x-1.0ab   12001\n";
    static const int64_t entries[] = {
        ZARFOLIN_MENDED_DROPPED, 1, 0,  ZARFOLIN_MENDED_PAD, 2, 14,     ZARFOLIN_MENDED_TERMINATOR, 2, 14,
        ZARFOLIN_MENDED_BYTE, 3, 28,    ZARFOLIN_MENDED_TERMINATOR, 3, 36, ZARFOLIN_MENDED_DROPPED, 4, 38,
        ZARFOLIN_MENDED_DROPPED, 5, 39, ZARFOLIN_MENDED_TERMINATOR, 6, 61,
    };
    enum { NUMBERS = sizeof entries / sizeof entries[0] };
    const size_t data_len = sizeof data - 1, due_len = sizeof due - 1;
    uint8_t out[sizeof due + 4];
    int64_t list[NUMBERS + 2], answer[4];
    memset(out, '?', sizeof out);
    for (size_t i = 0; i < NUMBERS + 2; i++) {
        list[i] = -1;
    }
    CHECK(NUMBERS % ZARFOLIN_MENDED == 0);
    CHECK(zarfolin_mend(table, table_len - 1, bytes(data), data_len, out, sizeof out, list, NUMBERS, answer) == ZARFOLIN_E_TABLE);
    CHECK(is(answer, 20, 0, 0, 0));
    CHECK(zarfolin_mend(table, table_len, bytes(data), data_len, out, due_len - 1, list, NUMBERS, answer) == ZARFOLIN_E_MEND_ROOM);
    CHECK(is(answer, 70, 0, 0, 0));
    CHECK(zarfolin_mend(table, table_len, bytes(data), data_len, out, due_len, list, NUMBERS - 1, answer) == ZARFOLIN_E_MEND_ROOM);
    CHECK(out[0] == '?' && out[due_len - 1] == '?' && list[0] == -1 && list[NUMBERS - 1] == -1);

    CHECK(zarfolin_mend(table, table_len, bytes(data), data_len, out, due_len, list, NUMBERS, answer) == ZARFOLIN_OK);
    CHECK(is(answer, 0, (int64_t)due_len, NUMBERS / ZARFOLIN_MENDED, 0));
    CHECK(memcmp(out, due, due_len) == 0 && out[due_len] == '?');
    CHECK(memcmp(list, entries, sizeof entries) == 0 && list[NUMBERS] == -1);
    CHECK(zarfolin_judge_file(table, table_len, bytes(due), due_len, answer) == ZARFOLIN_OK);
    CHECK(zarfolin_mend(table, table_len, bytes(due), due_len, out, sizeof out, list, 0, answer) == ZARFOLIN_OK);
    CHECK(is(answer, 0, (int64_t)due_len, 0, 0) && memcmp(out, due, due_len) == 0 && out[due_len] == '?');
    CHECK(zarfolin_mend(table, table_len, bytes(""), 0, out, 0, list, 0, answer) == ZARFOLIN_OK);
    CHECK(is(answer, 0, 0, 0, 0));
    CHECK(zarfolin_mend(table, table_len, bytes("\r\n\r"), 3, out, 0, list, 6, answer) == ZARFOLIN_OK);
    CHECK(is(answer, 0, 0, 2, 0) && list[0] == ZARFOLIN_MENDED_DROPPED && list[5] == 2);
}

/* A file as a matrix: where everything stands, with room, with just enough, with one byte too few; each refusal keeps the output. */
static void matrices(void) {
    static const char data[] = " 710x1x-1.0ab   120 1\n                     \n1200x0 99.5     0    \n";
    enum { R = 3, C = 1 + 3 + 1 + 1 + 20, SUMMARIES = 24, PRESENCE = 24 + 24 * C, VALUES = PRESENCE + R * C, TOTAL = VALUES + 8 * R * C };
    static const uint32_t header[] = {R, C, SUMMARIES, PRESENCE, VALUES, TOTAL};
    static const uint8_t one[] = {0, 0, 0, 0, 0, 0, 0xf0, 0x3f}, minus_one[] = {0, 0, 0, 0, 0, 0, 0xf0, 0xbf}, none[8] = {0};
    static uint8_t out[TOTAL + 4];
    int64_t answer[4];
    memset(out, '?', sizeof out);
    CHECK(zarfolin_matrix(table, table_len - 1, bytes(data), sizeof data - 1, out, sizeof out, answer) == ZARFOLIN_E_TABLE);
    CHECK(is(answer, 20, 0, 0, 0));
    CHECK(zarfolin_matrix(table, table_len, bytes(data), sizeof data - 2, out, sizeof out, answer) == ZARFOLIN_E_UNENDED);
    CHECK(is(answer, 30, 3, 0, 0));
    CHECK(zarfolin_matrix(table, table_len, bytes("13"), 2, out, sizeof out, answer) == ZARFOLIN_E_UNENDED);
    CHECK(zarfolin_matrix(table, table_len, bytes(data), sizeof data - 1, out, TOTAL - 1, answer) == ZARFOLIN_E_MATRIX_ROOM);
    CHECK(is(answer, 82, 0, 0, 0) && out[0] == '?' && out[TOTAL - 1] == '?');
    CHECK(zarfolin_matrix(table, table_len, bytes(data), sizeof data - 1, out, TOTAL, answer) == ZARFOLIN_OK);
    CHECK(is(answer, 0, TOTAL, R, C) && out[TOTAL] == '?');
    for (size_t i = 0; i < 24; i++) {
        CHECK(out[i] == (uint8_t)(header[i / 4] >> 8 * (i % 4)));
    }
    /* The desk: 7 and 12 of 3 records. The first category of `seen` is 1, the quantity -1.0, the second record missing throughout. */
    CHECK(out[SUMMARIES] == 2 && out[SUMMARIES + 14] == 0x1c && out[SUMMARIES + 22] == 0x28);
    CHECK(memcmp(out + VALUES + 8, one, 8) == 0 && memcmp(out + VALUES + 16, none, 8) == 0 && memcmp(out + VALUES + 8 * 4, minus_one, 8) == 0);
    for (size_t k = 0; k < C; k++) {
        CHECK(out[PRESENCE + k] == 1 && out[PRESENCE + C + k] == 0 && memcmp(out + VALUES + 8 * (C + k), none, 8) == 0);
        /* In the third record the empty set of `seen` is there, `two` is not. */
        CHECK(out[PRESENCE + 2 * C + k] == (k < 6));
    }
    CHECK(zarfolin_matrix(table, table_len, bytes(""), 0, out, 24 + 24 * C, answer) == ZARFOLIN_OK);
    CHECK(is(answer, 0, 24 + 24 * C, 0, C) && out[0] == 0 && out[4] == C && out[SUMMARIES] == 0);
}

/* A file as text, with room, with just enough, with one byte too few; cut by a fault; 20, 40 and 60 keep the output. */
static void exports(void) {
    static const char data[] = " 710x1x-1.0ab   120 1\n                     \n1200x0 99.5 ,\"  0    \n";
    static const char names[] = "desk,seen,wait,word,back,two\r\n";
    static const char due[] = "desk,seen,wait,word,back,two\r\n7,1;4,-1.0,ab,1,1;20\r\n,,,,,\r\n12,none,99.5,\" ,\"\"\",0,\r\n";
    enum { LENGTH = sizeof due - 1, FIRST = sizeof names - 1 + 22 };
    const uint8_t *const def = bytes(definition);
    const size_t def_len = sizeof definition - 1, data_len = sizeof data - 1;
    uint8_t out[LENGTH + 4];
    int64_t answer[ZARFOLIN_EXPORT_ANSWER + 1];
    answer[ZARFOLIN_EXPORT_ANSWER] = 12345;
    memset(out, '?', sizeof out);
    CHECK(zarfolin_export(def, 3, table, table_len - 1, bytes(data), data_len, out, 0, answer) == ZARFOLIN_E_TABLE);
    CHECK(is(answer, 20, 0, 0, 0) && answer[4] == 0);
    CHECK(zarfolin_export(def, def_len - 6, table, table_len, bytes(data), data_len, out, 0, answer) == ZARFOLIN_E_OTHER_TABLE);
    CHECK(is(answer, 40, 0, 0, 0) && answer[4] == 0);
    table[ZARFOLIN_HEADER + ZARFOLIN_NAME]++;
    CHECK(zarfolin_export(def, def_len, table, table_len, bytes(data), data_len, out, 0, answer) == ZARFOLIN_E_OTHER_TABLE);
    table[ZARFOLIN_HEADER + ZARFOLIN_NAME]--;
    CHECK(zarfolin_export(def, def_len, table, table_len, bytes(data), data_len, out, LENGTH - 1, answer) == ZARFOLIN_E_EXPORT_ROOM);
    CHECK(is(answer, 60, 0, 0, 0) && answer[4] == 0);
    CHECK(zarfolin_export(def, def_len, table, table_len, bytes("x"), 1, out, sizeof names - 2, answer) == ZARFOLIN_E_EXPORT_ROOM);
    for (size_t i = 0; i < sizeof out; i++) {
        CHECK(out[i] == '?');
    }
    CHECK(zarfolin_export(def, def_len, table, table_len, bytes(data), data_len, out, LENGTH, answer) == ZARFOLIN_OK);
    CHECK(is(answer, 0, 3, 0, 0) && answer[4] == LENGTH && memcmp(out, due, LENGTH) == 0 && out[LENGTH] == '?');
    /* A fault in record 2, of its bytes or of the file: the line before it stays, and there is room for no more. */
    static char faulty[sizeof data];
    memcpy(faulty, data, sizeof data);
    faulty[22] = '9', faulty[23] = '9';
    memset(out, '?', sizeof out);
    CHECK(zarfolin_export(def, def_len, table, table_len, bytes(faulty), data_len, out, FIRST, answer) == ZARFOLIN_E_NOT_LEGAL);
    CHECK(is(answer, 242, 2, 0, 99) && answer[4] == FIRST && memcmp(out, due, FIRST) == 0 && out[FIRST] == '?');
    CHECK(zarfolin_export(def, def_len, table, table_len, bytes(data), 23, out, FIRST, answer) == ZARFOLIN_E_UNENDED);
    CHECK(is(answer, 30, 2, 0, 0) && answer[4] == FIRST);
    CHECK(zarfolin_export(def, def_len, table, table_len, bytes(""), 0, out, sizeof out, answer) == ZARFOLIN_OK);
    CHECK(is(answer, 0, 0, 0, 0) && answer[4] == (int64_t)sizeof names - 1 && answer[ZARFOLIN_EXPORT_ANSWER] == 12345);
}

/* A definition in XML that is refused, with its number and the place of what is at fault. */
static int not_xml(const char *text, int64_t number, const char *fault) {
    int64_t answer[4];
    const zarfolin_number got = zarfolin_read_definition(bytes(text), strlen(text), table, 0, answer);
    return got == (zarfolin_number)number && is(answer, number, strstr(text, fault) - text, 0, 0);
}

/* Definitions in XML: mark, use and filter; texts in UTF-8; what they alone are refused with. */
static void in_xml(void) {
#define HEAD "<sss version=\"1.2\"><survey><record ident=\"A\">"
#define TAIL "</record></survey></sss>"
    static const char text[] = "<?xml version=\"1.0\" encoding=\"ISO-8859-1\"?>" HEAD
        "<variable ident=\"9\" type=\"character\" use=\"serial\"><name>no</name><label/>"
        "<position start=\"1\" finish=\"3\"/><size>3</size></variable>"
        "<variable ident=\"7\" type=\"logical\"><name>\xe9</name><label>a<br/>&amp;&#x20AC;<!-- c --></label>"
        "<position start=\"4\"/></variable>"
        "<variable ident=\"8\" type=\"logical\"><name>x</name><label/><position start=\"5\"/><filter>\xe9</filter></variable>" TAIL;
    int64_t xml[ZARFOLIN_TABLE(3, 0) + 1], answer[4], list[8];
    const size_t length = sizeof text - 1;
    xml[ZARFOLIN_TABLE(3, 0)] = -7;
    CHECK(zarfolin_read_definition(bytes(text), length, xml, ZARFOLIN_TABLE(3, 0) - 1, answer) == ZARFOLIN_E_TABLE_ROOM);
    CHECK(zarfolin_read_definition(bytes(text), length, xml, ZARFOLIN_TABLE(3, 0) + 1, answer) == ZARFOLIN_OK);
    CHECK(is(answer, 0, 0, 3, 0) && xml[ZARFOLIN_H_MARK] == ZARFOLIN_MARK_XML && xml[ZARFOLIN_TABLE(3, 0)] == -7);
    CHECK(zarfolin_row(xml, 0)[ZARFOLIN_USE] == ZARFOLIN_SERIAL && zarfolin_row(xml, 1)[ZARFOLIN_USE] == ZARFOLIN_NO_USE);
    CHECK(zarfolin_row(xml, 2)[ZARFOLIN_FILTER] == 2 && zarfolin_row(xml, 1)[ZARFOLIN_FILTER] == 0);
    /* A byte of ISO-8859-1 is two of UTF-8. */
    const int64_t *const row = zarfolin_row(xml, 1);
    CHECK(row[ZARFOLIN_NAME_LENGTH] == 1);
    CHECK(zarfolin_decode_text(bytes(text), length, (uint64_t)row[ZARFOLIN_NAME], 1, list, 1, answer) == ZARFOLIN_E_LIST_ROOM);
    CHECK(zarfolin_decode_text(bytes(text), length, (uint64_t)row[ZARFOLIN_NAME], 1, list, 2, answer) == ZARFOLIN_OK);
    CHECK(is(answer, 0, 2, 0, 0) && list[0] == 0xc3 && list[1] == 0xa9);
    const uint64_t label = (uint64_t)row[ZARFOLIN_LABEL], label_len = (uint64_t)row[ZARFOLIN_LABEL_LENGTH];
    CHECK(zarfolin_decode_text(bytes(text), length, label, label_len, list, 8, answer) == ZARFOLIN_OK);
    CHECK(is(answer, 0, 6, 0, 0) && list[0] == 'a' && list[1] == ZARFOLIN_BREAK && list[2] == '&' && list[3] == 0xe2);
    CHECK(zarfolin_decode_text(bytes(text), length, 0, 5, list, 8, answer) == ZARFOLIN_E_MARK && is(answer, 3, 0, 0, 0));
    /* Records are read by it as by any table. */
    CHECK(zarfolin_judge_record(xml, ZARFOLIN_TABLE(3, 0), bytes("ab 1 "), 5, answer) == ZARFOLIN_OK);
    CHECK(not_xml(HEAD "x", ZARFOLIN_E_TOKEN, "x") && not_xml("<sss version=\"2\">", ZARFOLIN_E_VERSION, "2"));
    CHECK(not_xml("<sss version=\"1.2\"><survey></survey>", ZARFOLIN_E_TOKEN, "</survey>"));
    CHECK(not_xml("<?xml version=\"1.1\"?>", ZARFOLIN_E_XML, "1.1") && not_xml(HEAD "<variable", ZARFOLIN_E_XML, "<variable"));
    CHECK(not_xml(HEAD "<record>", ZARFOLIN_E_ELEMENT, "<record>"));
    CHECK(not_xml("<sss xmlns=\"x\" version=\"1.2\">", ZARFOLIN_E_ELEMENT, "xmlns"));
    CHECK(not_xml(HEAD "<variable ident=\"1\" type=\"logical\" use=\"weight\">", ZARFOLIN_E_USE, "weight"));
    CHECK(not_xml(HEAD "<variable ident=\"1\" type=\"logical\"><name>a</name><label/><position start=\"1\"/><filter>a</filter></variable>",
                  ZARFOLIN_E_USE, "a</filter>"));
}

/* What the import of a text behind this name line is refused with; the output is kept. */
static int not_imported(const char *names, const char *lines, int64_t number, int64_t line, int64_t column) {
    char text[400];
    uint8_t out[50];
    int64_t answer[4];
    snprintf(text, sizeof text, "%s%s", names, lines);
    memset(out, '?', sizeof out);
    const zarfolin_number got = zarfolin_import(bytes(definition), sizeof definition - 1, table, table_len, bytes(text), strlen(text), out,
                                                sizeof out, answer);
    for (size_t i = 0; i < sizeof out; i++) {
        CHECK(out[i] == '?');
    }
    return got == (zarfolin_number)number && is(answer, number, line, column, 0);
}

/* Text as records, with room, with just enough, with one byte too few; every refusal keeps the output. */
static void imports(void) {
    static const char names[] = "desk,seen,wait,word,back,two\r\n";
    /* As a spreadsheet gives it back: a zero cut, quotes without need. */
    static const char text[] = "desk,\"seen\",wait,word,back,two\r\n7,1;4,-1,ab,1,1;20\r\n,,,\"\",,\r\n12,none,99.5,\" ,\"\"\",\"0\",\r\n";
    static const char due[] = "0710 1 -1.0ab   10120\r\n                     \r\n1200 0 99.5 ,\"  0    \r\n";
    enum { LENGTH = sizeof due - 1 };
    const uint8_t *const def = bytes(definition);
    const size_t def_len = sizeof definition - 1, text_len = sizeof text - 1;
    uint8_t out[LENGTH + 4];
    int64_t answer[ZARFOLIN_ANSWER + 1];
    answer[ZARFOLIN_ANSWER] = 12345;
    memset(out, '?', sizeof out);
    CHECK(zarfolin_import(def, 3, table, table_len - 1, bytes("\""), 1, out, 0, answer) == ZARFOLIN_E_TABLE);
    CHECK(is(answer, 20, 0, 0, 0));
    CHECK(zarfolin_import(def, def_len - 6, table, table_len, bytes("\""), 1, out, 0, answer) == ZARFOLIN_E_OTHER_TABLE);
    CHECK(is(answer, 40, 0, 0, 0));
    CHECK(zarfolin_import(def, def_len, table, table_len, bytes(text), text_len, out, LENGTH - 1, answer) == ZARFOLIN_E_EXPORT_ROOM);
    CHECK(is(answer, 60, 0, 0, 0));
    for (size_t i = 0; i < sizeof out; i++) {
        CHECK(out[i] == '?');
    }
    CHECK(zarfolin_import(def, def_len, table, table_len, bytes(text), text_len, out, LENGTH, answer) == ZARFOLIN_OK);
    CHECK(is(answer, 0, 3, LENGTH, 0) && memcmp(out, due, LENGTH) == 0 && out[LENGTH] == '?');
    CHECK(zarfolin_import(def, def_len, table, table_len, bytes(names), sizeof names - 1, out, 0, answer) == ZARFOLIN_OK);
    CHECK(is(answer, 0, 0, 0, 0) && answer[ZARFOLIN_ANSWER] == 12345);
    /* Lines of names, of another number of fields, of values; the lowest number of a line counts, and the earlier line. */
    CHECK(not_imported("", "", ZARFOLIN_E_MALFORMED, 1, 1) && not_imported(names, ",,,,,", ZARFOLIN_E_MALFORMED, 2, 6));
    CHECK(not_imported(names, "x,a\"b\r\n", ZARFOLIN_E_MALFORMED, 2, 2) && not_imported(names, ",,,,,\r\n,\n", ZARFOLIN_E_MALFORMED, 3, 2));
    CHECK(not_imported("desk,Seen,wait,word,back,two\r\n", "\"", ZARFOLIN_E_NAME_LINE, 1, 2));
    CHECK(not_imported("desk,seen\r\n", "", ZARFOLIN_E_NAME_LINE, 1, 3));
    CHECK(not_imported(names, "x,,,,,,,\r\n", ZARFOLIN_E_FIELDS, 2, 7) && not_imported(names, ",,,,,\r\n\r\n", ZARFOLIN_E_FIELDS, 3, 2));
    CHECK(not_imported(names, "13,,,,,\r\n", ZARFOLIN_E_FIELD, 2, 1) && not_imported(names, ",3,,,,\r\n\"", ZARFOLIN_E_FIELD, 2, 2));
    CHECK(not_imported(names, ",,7.,x ,,\r\n", ZARFOLIN_E_FIELD, 2, 3) && not_imported(names, ",,,x ,,\r\n", ZARFOLIN_E_FIELD, 2, 4));
    CHECK(not_imported(names, ",,,,2,\r\n", ZARFOLIN_E_FIELD, 2, 5) && not_imported(names, ",,,,,3;2\r\n", ZARFOLIN_E_FIELD, 2, 6));
    /* Two rows over one byte: 90, whatever the text. */
    static const char shared[] = "SSS VERSION 1.1 SURVEY RECORD R VARIABLE 1 NAME \"a\" LABEL \"\" TYPE LOGICAL POSITION 1 END VARIABLE "
                                 "VARIABLE 2 NAME \"b\" LABEL \"\" TYPE LOGICAL POSITION 1 END VARIABLE END RECORD END SURVEY END SSS";
    static int64_t other[ZARFOLIN_TABLE(2, 0)];
    CHECK(zarfolin_read_definition(bytes(shared), sizeof shared - 1, other, ZARFOLIN_TABLE(2, 0), answer) == ZARFOLIN_OK);
    CHECK(zarfolin_import(bytes(shared), sizeof shared - 1, other, ZARFOLIN_TABLE(2, 0), bytes("\""), 1, out, 0, answer) ==
          ZARFOLIN_E_SHARED);
    CHECK(is(answer, 90, 0, 0, 0));
}

/* A definition that is refused, with its number and the place of what is at fault, whatever the table; the output is kept. */
static void not_clean(const char *text, int64_t number, const char *fault) {
    uint8_t out[3] = {'?', '?', '?'};
    int64_t answer[4];
    CHECK(zarfolin_write_definition(bytes(text), strlen(text), table, table_len, out, sizeof out, answer) == (zarfolin_number)number);
    CHECK(is(answer, number, strstr(text, fault) - text, 0, 0) && out[0] == '?' && out[1] == '?' && out[2] == '?');
}

/* A definition of one LOGICAL whose title makes its clean text so long. */
static size_t titled(uint8_t *text, size_t clean_len) {
    static const char before[] = "SSSVERSION1.1SURVEYTITLE\"";
    static const char behind[] = "\"RECORDRVARIABLE1NAME\"\"LABEL\"\"TYPELOGICALPOSITION1ENDVARIABLEENDRECORDENDSURVEYENDSSS";
    static const char clean[] = "SSS\r\nVERSION 1.1\r\nSURVEY\r\nTITLE \"\"\r\nRECORD R\r\nVARIABLE 1\r\nNAME \"\"\r\nLABEL \"\"\r\n"
                                "TYPE LOGICAL\r\nPOSITION 1 TO 1\r\nEND VARIABLE\r\nEND RECORD\r\nEND SURVEY\r\nEND SSS\r\n";
    const size_t title = clean_len - (sizeof clean - 1);
    memcpy(text, before, sizeof before - 1);
    memset(text + sizeof before - 1, 'x', title);
    memcpy(text + sizeof before - 1 + title, behind, sizeof behind - 1);
    return sizeof before - 1 + title + sizeof behind - 1;
}

#define OPENING "SSS VERSION 1.1 SURVEY RECORD R VARIABLE "
#define LOGICAL "NAME \"\" LABEL \"\" TYPE LOGICAL POSITION "
#define SINGLE "NAME \"\" LABEL \"\" TYPE SINGLE POSITION 1 VALUES "
#define CLOSING " END VARIABLE END RECORD END SURVEY END SSS"

/* A definition written clean, with room, with just enough, with one byte too few; every refusal. */
static void cleans(void) {
    static const char due[] =
        "SSS\r\nVERSION 1.1\r\nSURVEY\r\nRECORD R\r\n"
        "VARIABLE 1\r\nNAME \"desk\"\r\nLABEL \"Desk\"\r\nTYPE SINGLE\r\nPOSITION 1 TO 2\r\n"
        "VALUES\r\n1 TO 12\r\nEND VALUES\r\nEND VARIABLE\r\n"
        "VARIABLE 2\r\nNAME \"seen\"\r\nLABEL \"Seen\"\r\nTYPE MULTIPLE\r\nPOSITION 3 TO 6\r\n"
        "VALUES\r\n1 \"a\"\r\n2 \"b\"\r\n4 \"d\" SPECIAL\r\nEND VALUES\r\nEND VARIABLE\r\n"
        "VARIABLE 3\r\nNAME \"wait\"\r\nLABEL \"Wait\"\r\nTYPE QUANTITY\r\nPOSITION 7 TO 11\r\n"
        "VALUES\r\n-1.0 TO 99.5\r\nEND VALUES\r\nEND VARIABLE\r\n"
        "VARIABLE 4\r\nNAME \"word\"\r\nLABEL \"Word\"\r\nTYPE CHARACTER\r\nPOSITION 12 TO 16\r\nSIZE 5\r\nEND VARIABLE\r\n"
        "VARIABLE 5\r\nNAME \"back\"\r\nLABEL \"Back\"\r\nTYPE LOGICAL\r\nPOSITION 17 TO 17\r\nEND VARIABLE\r\n"
        "VARIABLE 6\r\nNAME \"two\"\r\nLABEL \"Two\"\r\nTYPE MULTIPLE\r\nPOSITION 18 TO 21\r\nSPREAD 2 OF 2\r\n"
        "VALUES\r\n1 TO 20\r\nEND VALUES\r\nEND VARIABLE\r\n"
        "END RECORD\r\nEND SURVEY\r\nEND SSS\r\n";
    enum { LENGTH = sizeof due - 1 };
    static uint8_t out[ZARFOLIN_MAX_DEFINITION], text[ZARFOLIN_MAX_DEFINITION + 1];
    static int64_t own[ZARFOLIN_MAX_TABLE];
    int64_t answer[4];
    const uint8_t *const def = bytes(definition);
    const size_t def_len = sizeof definition - 1;

    memset(out, '?', sizeof out);
    CHECK(zarfolin_write_definition(def, def_len, table, table_len, out, LENGTH, answer) == ZARFOLIN_OK);
    CHECK(is(answer, 0, 0, LENGTH, 0) && memcmp(out, due, LENGTH) == 0 && out[LENGTH] == '?');
    /* Read again: the same table but for the places and lengths of texts. Cleaned again: the same text. */
    CHECK(zarfolin_read_definition(out, LENGTH, own, ZARFOLIN_MAX_TABLE, answer) == ZARFOLIN_OK && is(answer, 0, 0, 6, 3));
    CHECK(zarfolin_write_definition(out, LENGTH, own, table_len, text, LENGTH, answer) == ZARFOLIN_OK);
    CHECK(is(answer, 0, 0, LENGTH, 0) && memcmp(text, due, LENGTH) == 0);
    for (size_t i = 0; i < table_len; i++) {
        const size_t lines_at = ZARFOLIN_TABLE(6, 0), in_line = (i - lines_at) % ZARFOLIN_LINE;
        const size_t in_row = i < ZARFOLIN_HEADER ? ZARFOLIN_IDENT : (i - ZARFOLIN_HEADER) % ZARFOLIN_ROW;
        const int of_row = in_row >= ZARFOLIN_NAME && in_row <= ZARFOLIN_LABEL_LENGTH;
        const int is_text = i < lines_at ? of_row : in_line >= ZARFOLIN_LINE_TEXT;
        CHECK(is_text || own[i] == table[i]);
    }
    /* More numbers are not looked at; every number that the definition yields is, and none may be missing. */
    CHECK(zarfolin_write_definition(def, def_len, table, ZARFOLIN_MAX_TABLE, out, sizeof out, answer) == ZARFOLIN_OK);
    memset(out, '?', sizeof out);
    CHECK(zarfolin_write_definition(def, def_len, table, table_len - 1, out, sizeof out, answer) == ZARFOLIN_E_OTHER_TABLE);
    CHECK(is(answer, 40, 0, 0, 0));
    for (size_t i = 0; i < table_len; i++) {
        table[i]++;
        CHECK(zarfolin_write_definition(def, def_len, table, table_len, out, sizeof out, answer) == ZARFOLIN_E_OTHER_TABLE);
        table[i]--;
    }
    CHECK(zarfolin_write_definition(def, def_len, table, table_len, out, LENGTH - 1, answer) == ZARFOLIN_E_CLEAN_ROOM);
    CHECK(is(answer, 42, 0, 0, 0));
    for (size_t i = 0; i <= LENGTH; i++) {
        CHECK(out[i] == '?');
    }

    /* The definition's own refusals come first, with their places. */
    memset(text, ' ', sizeof text);
    CHECK(zarfolin_write_definition(text, sizeof text, table, 0, out, 0, answer) == ZARFOLIN_E_TOO_LONG && is(answer, 1, 0, 0, 0));
    not_clean("SSS VERSION 1.1 SURVEY +", 2, "+");
    not_clean("<?xml version=\"1.0\"?><sss version=\"1.2\">", 2, "<?xml"); /* 1.1 alone is written */
    not_clean("SSS VERSION 1.1 <a <comment>", 3, "<a");
    not_clean("SSS VERSION 1.2", 4, "1.2");
    not_clean(OPENING "0000 " LOGICAL "1" CLOSING, 5, "0000");
    not_clean(OPENING "1 " SINGLE "8 TO 7 END VALUES" CLOSING, 6, "7 END");
    not_clean(OPENING "1 " LOGICAL "0" CLOSING, 7, "0 END");
    not_clean(OPENING "1 " LOGICAL "16385" CLOSING, 8, "16385");
    not_clean("SSS VERSION 1.1 STANDARD NAMES SURVEY RECORD R VARIABLE 1 "
              "NAME \"1st\" LABEL \"\" TYPE LOGICAL POSITION 1" CLOSING, 9, "\"1st");

    /* The longest clean text, and one that is a byte longer: 41 comes before 42. */
    size_t length = titled(text, ZARFOLIN_MAX_DEFINITION);
    CHECK(zarfolin_read_definition(text, length, own, ZARFOLIN_MAX_TABLE, answer) == ZARFOLIN_OK);
    CHECK(zarfolin_write_definition(text, length, own, ZARFOLIN_MAX_TABLE, out, sizeof out, answer) == ZARFOLIN_OK);
    CHECK(is(answer, 0, 0, ZARFOLIN_MAX_DEFINITION, 0) && out[sizeof out - 1] == '\n');
    CHECK(zarfolin_write_definition(text, length, own, ZARFOLIN_MAX_TABLE, out, sizeof out - 1, answer) == ZARFOLIN_E_CLEAN_ROOM);
    length = titled(text, ZARFOLIN_MAX_DEFINITION + 1);
    CHECK(zarfolin_read_definition(text, length, own, ZARFOLIN_MAX_TABLE, answer) == ZARFOLIN_OK);
    memset(out, '?', sizeof out);
    for (size_t room = 0; room <= sizeof out; room += sizeof out) {
        CHECK(zarfolin_write_definition(text, length, own, ZARFOLIN_MAX_TABLE, out, room, answer) == ZARFOLIN_E_CLEAN_SIZE);
        CHECK(is(answer, 41, 0, 0, 0) && out[0] == '?' && out[sizeof out - 1] == '?');
    }
    CHECK(zarfolin_write_definition(text, length, table, table_len, out, 0, answer) == ZARFOLIN_E_OTHER_TABLE);
}

/* Every refusal has words of its own, and a number of none has some too. */
static void messages(void) {
    CHECK(zarfolin_version() == ZARFOLIN_VERSION);
    const char *unknown = zarfolin_message(99);
    CHECK(strlen(unknown) > 0 && zarfolin_message(UINT64_MAX) == unknown && zarfolin_message(24) == unknown);
    CHECK(zarfolin_message(ZARFOLIN_E_STRAY) != unknown && zarfolin_message(ZARFOLIN_E_NOT_LEGAL) != unknown);
    CHECK(zarfolin_message(ZARFOLIN_E_POINT) != unknown && zarfolin_message(ZARFOLIN_E_SHARED) != unknown);
    CHECK(zarfolin_message(ZARFOLIN_E_MEND_ROOM) != unknown);
    CHECK(zarfolin_message(ZARFOLIN_E_NO_COLUMN) != unknown && zarfolin_message(ZARFOLIN_E_MATRIX_SIZE) != unknown);
    CHECK(zarfolin_message(ZARFOLIN_E_MATRIX_ROOM) != unknown);
    CHECK(zarfolin_message(ZARFOLIN_E_CLEAN_SIZE) != unknown && zarfolin_message(ZARFOLIN_E_CLEAN_ROOM) != unknown);
    CHECK(zarfolin_message(ZARFOLIN_E_OTHER_TABLE) != unknown && zarfolin_message(ZARFOLIN_E_EXPORT_ROOM) != unknown);
    CHECK(zarfolin_message(ZARFOLIN_E_XML) != unknown && zarfolin_message(ZARFOLIN_E_ELEMENT) != unknown);
    CHECK(zarfolin_message(ZARFOLIN_E_USE) != unknown);
    CHECK(zarfolin_message(ZARFOLIN_E_MALFORMED) != unknown && zarfolin_message(ZARFOLIN_E_NAME_LINE) != unknown);
    CHECK(zarfolin_message(ZARFOLIN_E_FIELDS) != unknown && zarfolin_message(ZARFOLIN_E_FIELD) != unknown);
    for (zarfolin_number a = 0; a <= ZARFOLIN_E_LENGTH; a++) {
        const int none = (a > ZARFOLIN_E_TABLE_ROOM && a < ZARFOLIN_E_TABLE) || a == 24;
        CHECK((strcmp(zarfolin_message(a), unknown) == 0) == none);
        for (zarfolin_number b = 0; b < a && !none; b++) {
            CHECK(strcmp(zarfolin_message(a), zarfolin_message(b)) != 0);
        }
    }
    CHECK(ZARFOLIN_MAX_TABLE == ZARFOLIN_TABLE(ZARFOLIN_MAX_VARIABLES, ZARFOLIN_MAX_LINES));
}

int main(void) {
    messages();
    definitions();
    in_xml();
    readings();
    texts();
    writes();
    corrections();
    files();
    parts();
    mends();
    matrices();
    exports();
    imports();
    cleans();
    printf("face for C: %d checks, all as they should be\n", checks);
    return 0;
}
