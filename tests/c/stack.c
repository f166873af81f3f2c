/* How much stack each call takes, held to the figures of include/zarfolin.h.
 *
 * Each call runs on a stack of its own that was painted before; what is no longer as it was painted was used. An empty call
 * is measured in the same way and taken off. The first runs of a call don't count: in them the dynamic linker may still
 * have to bind memcpy. The inputs go through every type, refusal and terminator, tables that rise and that
 * don't, and comments of 32 levels. Says what was measured, ends with status 1 if a call took more than its figure, and
 * with a note if a figure is more than an eighth and 64 bytes too high.
 *
 *     cc -O2 -I include tests/c/stack.c target/staticlib/libzarfolin.a -o stack && ./stack
 */
#define _GNU_SOURCE
#include "zarfolin.h"

#include <stdio.h>
#include <stdlib.h>
#include <string.h>
#include <ucontext.h>

#define STACK (1u << 20)
#define PAINT 0xa5

static uint8_t stack[STACK] __attribute__((aligned(64)));
static ucontext_t home, away;

/* What the measured calls are given. */
static char def[ZARFOLIN_MAX_DEFINITION + 2];
static size_t def_len;
static int64_t table[ZARFOLIN_MAX_TABLE];
static int64_t list[ZARFOLIN_MAX_SET];
static size_t list_len = ZARFOLIN_MAX_SET;
static int64_t out[ZARFOLIN_ANSWER * ZARFOLIN_MAX_VARIABLES];
static int64_t members[4 * ZARFOLIN_MAX_LOCATION];
static uint8_t record[ZARFOLIN_MAX_LOCATION + 8];
static size_t record_len;
static uint64_t row;
static uint64_t place, length;
static uint64_t terminator, first_len, last;
static int64_t number;
static int64_t answer[ZARFOLIN_ANSWER], five[ZARFOLIN_EXPORT_ANSWER];
static struct zarfolin_correction corrections[4];
static uint8_t mended[4 * (ZARFOLIN_MAX_LOCATION + 8)];
static int64_t changes[3 * (ZARFOLIN_MAX_LOCATION + 8)];
static size_t mended_len;
static uint8_t matrix_out[ZARFOLIN_MAX_MATRIX];
static size_t matrix_len = ZARFOLIN_MAX_MATRIX;
static uint8_t export_out[1 << 20];
static size_t export_len = sizeof export_out;
static uint8_t import_out[4 * (ZARFOLIN_MAX_LOCATION + 8)];
static size_t import_len, text_len;
static uint8_t clean_out[ZARFOLIN_MAX_DEFINITION];
static size_t clean_len = sizeof clean_out;
static volatile zarfolin_number got;

#define TABLE table, ZARFOLIN_MAX_TABLE
#define TEXT (const uint8_t *)def, def_len
static void nothing(void) { got = 0; }
static void version(void) { got = zarfolin_version(); }
static void read_definition(void) { got = zarfolin_read_definition(TEXT, TABLE, answer); }
static void decode_text(void) { got = zarfolin_decode_text(TEXT, place, length, list, list_len, answer); }
static void read_value(void) { got = zarfolin_read_value(TABLE, row, record, record_len, list, list_len, answer); }
static void read_record(void) {
    got = zarfolin_read_record(TABLE, record, record_len, out, sizeof out / sizeof out[0], members, 4 * ZARFOLIN_MAX_LOCATION, answer);
}
static void judge_record(void) { got = zarfolin_judge_record(TABLE, record, record_len, answer); }
static void write_missing(void) { got = zarfolin_write_missing(TABLE, row, record, record_len); }
static void write_number(void) { got = zarfolin_write_number(TABLE, row, number, record, record_len); }
static void write_truth(void) { got = zarfolin_write_truth(TABLE, row, (uint8_t)number, record, record_len); }
static void write_set(void) { got = zarfolin_write_set(TABLE, row, list, list_len, record, record_len); }
static void write_text(void) { got = zarfolin_write_text(TABLE, row, (const uint8_t *)def, (size_t)number, record, record_len); }
static void correct(void) { got = zarfolin_correct(TABLE, corrections, sizeof corrections / sizeof corrections[0], record, record_len); }
static void normal(void) { got = zarfolin_normal(TABLE, record, record_len, answer); }
static void judge_file(void) { got = zarfolin_judge_file(TABLE, record, record_len, answer); }
static void judge_part(void) { got = zarfolin_judge_part(TABLE, record, record_len, terminator, first_len, last, answer); }
static void mend(void) {
    got = zarfolin_mend(TABLE, record, record_len, mended, mended_len, changes, sizeof changes / sizeof changes[0], answer);
}
static void matrix(void) { got = zarfolin_matrix(TABLE, record, record_len, matrix_out, matrix_len, answer); }
static void export_file(void) {
    got = zarfolin_export(TEXT, TABLE, record, record_len, export_out, export_len, five);
}
static void import_text(void) {
    got = zarfolin_import(TEXT, TABLE, export_out, text_len, import_out, import_len, answer);
}
static void write_definition(void) { got = zarfolin_write_definition(TEXT, TABLE, clean_out, clean_len, answer); }
static void next_record(void) { got = zarfolin_next_record(record, record_len, row, answer); }

static struct measured {
    const char *name;
    void (*call)(void);
    size_t figure;
    size_t most;
    unsigned runs;
} calls[] = {
    {"zarfolin_version", version, ZARFOLIN_STACK_VERSION, 0, 0},
    {"zarfolin_read_definition", read_definition, ZARFOLIN_STACK_READ_DEFINITION, 0, 0},
    {"zarfolin_decode_text", decode_text, ZARFOLIN_STACK_DECODE_TEXT, 0, 0},
    {"zarfolin_read_value", read_value, ZARFOLIN_STACK_READ_VALUE, 0, 0},
    {"zarfolin_read_record", read_record, ZARFOLIN_STACK_READ_RECORD, 0, 0},
    {"zarfolin_judge_record", judge_record, ZARFOLIN_STACK_JUDGE_RECORD, 0, 0},
    {"zarfolin_write_missing", write_missing, ZARFOLIN_STACK_WRITE, 0, 0},
    {"zarfolin_write_number", write_number, ZARFOLIN_STACK_WRITE, 0, 0},
    {"zarfolin_write_truth", write_truth, ZARFOLIN_STACK_WRITE, 0, 0},
    {"zarfolin_write_set", write_set, ZARFOLIN_STACK_WRITE, 0, 0},
    {"zarfolin_write_text", write_text, ZARFOLIN_STACK_WRITE, 0, 0},
    {"zarfolin_correct", correct, ZARFOLIN_STACK_CORRECT, 0, 0},
    {"zarfolin_judge_file", judge_file, ZARFOLIN_STACK_JUDGE_FILE, 0, 0},
    {"zarfolin_judge_part", judge_part, ZARFOLIN_STACK_JUDGE_PART, 0, 0},
    {"zarfolin_mend", mend, ZARFOLIN_STACK_MEND, 0, 0},
    {"zarfolin_matrix", matrix, ZARFOLIN_STACK_MATRIX, 0, 0},
    {"zarfolin_export", export_file, ZARFOLIN_STACK_EXPORT, 0, 0},
    {"zarfolin_import", import_text, ZARFOLIN_STACK_IMPORT, 0, 0},
    {"zarfolin_write_definition", write_definition, ZARFOLIN_STACK_WRITE_DEFINITION, 0, 0},
    {"zarfolin_next_record", next_record, ZARFOLIN_STACK_NEXT_RECORD, 0, 0},
    {"zarfolin_normal", normal, ZARFOLIN_STACK_NORMAL, 0, 0},
};
enum { CALLS = sizeof calls / sizeof calls[0] };

static void (*to_run)(void);
static void run(void) { to_run(); }

/* The bytes of a stack that a call touches, the frames that lead to it among them. So many are painted; if it goes deeper, all. */
static size_t touched(void (*call)(void), size_t deep) {
    const size_t from = STACK - (deep < STACK ? deep : STACK);
    memset(stack + from, PAINT, STACK - from);
    to_run = call;
    getcontext(&away);
    away.uc_stack.ss_sp = stack;
    away.uc_stack.ss_size = STACK;
    away.uc_link = &home;
    makecontext(&away, run, 0);
    swapcontext(&home, &away);
    size_t free = from;
    while (free < STACK && *(const uint64_t *)(stack + free) == PAINT * UINT64_C(0x0101010101010101)) {
        free += 8;
    }
    return free == from && from > 0 ? touched(call, STACK) : STACK - free;
}

static void measure(void (*call)(void)) {
    static size_t base;
    if (base == 0) {
        touched(nothing, STACK);
        base = touched(nothing, STACK);
    }
    for (size_t i = 0; i < CALLS; i++) {
        if (calls[i].call == call) {
            const size_t deep = 2 * calls[i].figure + (1u << 16);
            if (calls[i].runs++ < 2) {
                touched(call, STACK);
            }
            const size_t used = touched(call, deep) - base;
            calls[i].most = used > calls[i].most ? used : calls[i].most;
        }
    }
}

static void add(const char *text) {
    const size_t n = strlen(text);
    if (def_len + n < sizeof def) {
        memcpy(def + def_len, text, n);
        def_len += n;
    }
}

static void begin(const char *heading) {
    def_len = 0;
    add("SSS VERSION 1.1 ");
    add(heading);
    add(" SURVEY RECORD R ");
}

static void variable(int ident, const char *rest) {
    char text[80];
    snprintf(text, sizeof text, "VARIABLE %d NAME \"v%d\" LABEL \"{\"}l{4142}{NL}\" TYPE ", ident, ident);
    add(text);
    add(rest);
    add(" END VARIABLE ");
}

/* Read; and written clean, with room and with none. */
static zarfolin_number whole_definition(void) {
    measure(read_definition);
    const zarfolin_number read = got;
    for (clean_len = 0; clean_len <= sizeof clean_out; clean_len += sizeof clean_out) {
        measure(write_definition);
    }
    clean_len = sizeof clean_out;
    if (read == ZARFOLIN_OK && got != ZARFOLIN_OK) {
        fprintf(stderr, "a definition that is read was not written: %d\n", (int)got);
        exit(1);
    }
    return got = read;
}

static zarfolin_number end(void) {
    add("END RECORD END SURVEY END SSS");
    return whole_definition();
}

/* The texts of the first row: with room, with none, cut short, and one byte too long. */
static void texts(void) {
    const int64_t *const first = zarfolin_row(table, 0);
    for (int column = ZARFOLIN_NAME; column <= ZARFOLIN_LABEL; column += ZARFOLIN_LABEL - ZARFOLIN_NAME) {
        const uint64_t whole = (uint64_t)first[column + 1];
        place = (uint64_t)first[column];
        for (length = 0; length <= whole + 1; length++) {
            list_len = ZARFOLIN_MAX_SET;
            measure(decode_text);
            list_len = 0;
            measure(decode_text);
        }
    }
    list_len = ZARFOLIN_MAX_SET;
}

/* Every way a record may look, each judged, read and written by every row. */
static void records(void) {
    static const char fillers[] = " 01x-9.\t\xff";
    static const int64_t numbers[] = {0, 1, 7, 12, -10, -999999999999999, INT64_MAX};
    const uint64_t rows = (uint64_t)table[ZARFOLIN_H_VARIABLES];
    for (size_t f = 0; f + 1 < sizeof fillers; f++) {
        record_len = (size_t)table[ZARFOLIN_H_RECORD];
        memset(record, fillers[f], sizeof record);
        measure(judge_record);
        measure(read_record);
        measure(normal);
        for (row = 0; row <= rows; row += rows > 8 ? rows / 8 : 1) {
            list_len = ZARFOLIN_MAX_SET;
            measure(read_value);
            for (size_t n = 0; n < sizeof numbers / sizeof numbers[0]; n++) {
                number = numbers[n];
                measure(write_number);
                measure(read_value);
                measure(write_truth);
                for (uint64_t k = 0; k < 4; k++) {
                    corrections[k].row = row + k % 2;
                    corrections[k].value.kind = k == 2 ? ZARFOLIN_IS_TRUTH : k == 3 ? ZARFOLIN_MISSING : ZARFOLIN_IS_NUMBER;
                    corrections[k].value.number = number;
                }
                measure(correct);
                number = (int64_t)((uint64_t)numbers[n] % 4);
                measure(write_text);
                measure(read_value);
                list_len = (size_t)number;
                list[0] = 1, list[1] = 2, list[2] = n % 2 ? 5 : 1;
                measure(write_set);
                measure(read_value);
                list_len = ZARFOLIN_MAX_SET;
                measure(read_value);
            }
            measure(write_missing);
            measure(read_value);
            measure(read_record);
            measure(normal);
        }
        measure(judge_record);
    }
    row = 0, record_len = 3;
    measure(judge_record), measure(read_value), measure(read_record), measure(write_missing), measure(write_number);
    measure(correct);
}

/* The matrix of one sound record, ended here, with room and with none. */
static void matrix_of_one(void) {
    record[record_len++] = '\n';
    for (matrix_len = 0; matrix_len <= sizeof matrix_out; matrix_len += sizeof matrix_out) {
        measure(matrix);
    }
    matrix_len = sizeof matrix_out;
}

/* The export of one sound record, ended already, with room and with none. */
static void export_of_one(void) {
    for (export_len = 0; export_len <= sizeof export_out; export_len += sizeof export_out) {
        measure(export_file);
    }
    export_len = sizeof export_out;
}

/* A definition in XML: one variable of each kind, or so many of 8 lines each. */
static void sheet(int many) {
    static const char *const variables[] = {
        "<variable ident=\"1\" type=\"character\" use=\"serial\"><name>a</name>"
        "<label>x&amp;<br/>&#x20AC;<text xml:lang=\"f\">y<br/></text></label>"
        "<position finish=\"9\" start=\"1\"/><size>9</size></variable>",
        "<variable ident=\"2\" type=\"logical\"><name>b</name><label/><position start=\"10\"/></variable>",
        "<variable ident=\"3\" type=\"single\"><name>c</name><label/><position start=\"11\" finish=\"14\"/><filter>b</filter><values>"
        "<range from=\"1\" to=\"12\"/><value code=\"9999\">n</value></values></variable>",
        "<variable ident=\"4\" type=\"multiple\"><name>d</name><label/><position start=\"15\" finish=\"20\"/>"
        "<spread subfields=\"3\" width=\"2\"/><values>"
        "<value code=\"7\">u</value><value code=\"5\"/></values></variable>",
        "<variable ident=\"5\" type=\"multiple\"><name>e</name><label/><position start=\"21\" finish=\"29\"/>"
        "<values><range from=\"1\" to=\"9\"/></values></variable>",
        "<variable ident=\"6\" type=\"quantity\" use=\"weight\"><name>f</name><label/><position start=\"30\" finish=\"35\"/><values>"
        "<range from=\"-1.00\" to=\"99.50\"/></values></variable>",
    };
    def_len = 0;
    add("<?xml version=\"1.0\" encoding=\"ISO-8859-1\"?><!DOCTYPE sss SYSTEM \"s\"><!-- c -->"
        "<sss version=\"1.2\" options=\"standardnames\" "
        "languages=\"e f\"><date>d</date><survey><title>t<br/></title><record ident=\"A\">");
    for (size_t v = 0; many == 0 && v < sizeof variables / sizeof variables[0]; v++) {
        add(variables[v]);
    }
    for (int v = many; v > 0; v--) {
        char text[200];
        snprintf(text, sizeof text,
                 "<variable ident=\"%d\" type=\"quantity\"><name>v%d</name><label/><position start=\"%d\" finish=\"%d\"/><values>",
                 v, v, 20 * v, 20 * v + 19);
        add(text);
        for (int i = 8; i > 0; i--) {
            snprintf(text, sizeof text, "<value code=\"-%d%d.25\">t</value>", i, v);
            add(text);
        }
        add("</values></variable>");
    }
}
static zarfolin_number end_of_sheet(void) {
    add("</record></survey></sss>");
    measure(read_definition);
    return got;
}

/* What was exported, imported: with room, with none, cut short, and with a byte changed now and then. */
static void import_of_it(void) {
    text_len = (size_t)five[4];
    for (import_len = 0; import_len <= sizeof import_out; import_len += sizeof import_out) {
        measure(import_text);
    }
    import_len = sizeof import_out;
    const zarfolin_number whole = got;
    if (text_len > 0) {
        text_len--;
        measure(import_text);
        text_len++;
        for (size_t at = 0; at < text_len; at += text_len / 4 + 1) {
            const uint8_t kept = export_out[at];
            export_out[at] = at % 2 ? '"' : '7';
            measure(import_text);
            export_out[at] = kept;
        }
    }
    got = whole;
}

/* Files with each terminator, of sound and faulty records. */
static void files(void) {
    static const char *const ends[] = {"\r\n", "\n\r", "\r", "\n", ""};
    const size_t length = (size_t)table[ZARFOLIN_H_RECORD];
    for (size_t e = 0; e < sizeof ends / sizeof ends[0]; e++) {
        for (int filler = 0; filler < 3; filler++) {
            record_len = 0;
            for (int n = 0; n < 3 && record_len + length + 2 < sizeof record; n++) {
                memset(record + record_len, " 0\t"[filler], length);
                record_len += length;
                memcpy(record + record_len, ends[e], strlen(ends[e]));
                record_len += strlen(ends[e]);
                measure(judge_file);
                for (terminator = 0; terminator <= 5; terminator++) {
                    for (last = 0; last < 2; last++) {
                        first_len = length;
                        measure(judge_part);
                        first_len = record_len;
                        measure(judge_part);
                    }
                }
                for (row = 0; row <= record_len; row += record_len / 3 + 1) {
                    measure(next_record);
                }
                measure(matrix);
                measure(export_file);
                import_of_it();
                mended_len = sizeof mended;
                measure(mend);
                mended_len = 0;
                measure(mend);
                mended_len = sizeof mended;
                record_len -= n == 1 ? 1 : 0; /* so that the third record is padded, or ends otherwise */
                measure(mend);
                record_len += n == 1 ? 1 : 0;
            }
        }
    }
}

int main(void) {
    static const char *const types[] = {
        "SINGLE POSITION 1 TO 4 VALUES 1 TO 12 END VALUES",
        "SINGLE POSITION 1 TO 5 VALUES 9 \"a\" 7 \"b\" SPECIAL 9999 \"c\" 1 \"d\" END VALUES",
        "MULTIPLE POSITION 1 TO 9 VALUES 1 TO 9 END VALUES",
        "MULTIPLE POSITION 1 TO 9 VALUES 9 \"a\" 2 \"b\" 1 \"c\" END VALUES",
        "MULTIPLE POSITION 1 TO 9 VALUES 1 TO 3 WITH 7 \"a\" 5 \"b\" END VALUES",
        "MULTIPLE POSITION 1 TO 9999 VALUES 1 TO 9999 END VALUES",
        "MULTIPLE POSITION 1 TO 16000 SPREAD 4000 OF 4 VALUES 1 TO 9999 END VALUES",
        "MULTIPLE POSITION 1 TO 6 SPREAD 3 VALUES 1 TO 3 WITH 7 \"a\" 5 \"b\" END VALUES",
        "QUANTITY POSITION 1 TO 5 VALUES -1.0 TO 99.5 END VALUES",
        "QUANTITY POSITION 1 TO 20 VALUES -99999.0000000000 TO 5 END VALUES",
        "QUANTITY POSITION 1 TO 20 VALUES -999999.999999999 TO 999999.999999999 WITH 7.000000000 \"x\" -1.000000000 \"y\" END VALUES",
        "CHARACTER POSITION 1 TO 16 SIZE 5",
        "CHARACTER POSITION 1 TO 4096 SIZE 4096",
        "LOGICAL POSITION 1 TO 3",
        "LOGICAL POSITION 16385",
        "SINGLE POSITION 3 TO 2",
    };
    char deep[16 * (ZARFOLIN_MAX_LEVEL + 1) + 1] = "";
    for (int i = 0; i < ZARFOLIN_MAX_LEVEL; i++) {
        strcat(deep, "<\"{4142}<\" ");
    }
    for (int i = 0; i < ZARFOLIN_MAX_LEVEL; i++) {
        strcat(deep, ">");
    }

    measure(version);
    for (size_t t = 0; t < sizeof types / sizeof types[0]; t++) {
        begin(t % 2 ? "STANDARD NAMES" : "DATE \"3/NOV/98\" NOTE \"x\"");
        variable(1, types[t]);
        if (end() == ZARFOLIN_OK) {
            texts();
            records();
            files();
        }
    }
    /* All types in one table, with idents that rise and that fall; comments and notes wherever they may stand. */
    for (int falling = 0; falling < 2; falling++) {
        begin("STANDARD NAMES USER \"u\" TIME \"18:32\" ORIGIN \"o\"");
        for (int t = 0; t < 14; t++) {
            if (t != 9) {
                variable(falling ? 900 - t : t + 1, types[t]);
            }
        }
        if (end() == ZARFOLIN_OK) {
            records();
            files();
        }
    }
    /* Rows apart, in a record that is long, with more lines than are searched one by one, falling: what the normal form takes most for. */
    begin("STANDARD NAMES");
    char falling_lines[2000] = "MULTIPLE POSITION 1 TO 15000 SPREAD 3750 OF 4 VALUES ", line[20];
    for (int i = 60; i > 0; i--) {
        snprintf(line, sizeof line, "%d \"t\" ", 160 * i);
        strcat(falling_lines, line);
    }
    strcat(falling_lines, "END VALUES");
    variable(2, falling_lines);
    variable(1, "SINGLE POSITION 15001 TO 15005 VALUES 9 \"a\" 7 \"b\" SPECIAL 9999 \"c\" 1 \"d\" END VALUES");
    variable(3, "QUANTITY POSITION 15006 TO 15010 VALUES -1.0 TO 99.5 END VALUES");
    variable(4, "MULTIPLE POSITION 15101 TO 16100 VALUES 1 TO 3 WITH 7 \"a\" 5 \"b\" END VALUES");
    if (end() == ZARFOLIN_OK) {
        record_len = (size_t)table[ZARFOLIN_H_RECORD];
        memset(record, ' ', record_len);
        memcpy(record, "9600 160 320", 12);
        measure(normal);
    }
    if (got != ZARFOLIN_OK || memcmp(record, "016003209600000", 15) != 0) {
        fprintf(stderr, "the record with rows apart got no normal form: %d\n", (int)got);
        return 1;
    }
    matrix_of_one();
    if (got != ZARFOLIN_OK) {
        fprintf(stderr, "the record with rows apart got no matrix: %d\n", (int)got);
        return 1;
    }
    export_of_one();
    if (got != ZARFOLIN_OK) {
        fprintf(stderr, "the record with rows apart was not exported: %d\n", (int)got);
        return 1;
    }
    import_of_it();
    if (got != ZARFOLIN_OK) {
        fprintf(stderr, "the record with rows apart was not imported: %d\n", (int)got);
        return 1;
    }
    /* The largest: 512 variables of 8 lines each, the names long and alike, lines falling. */
    begin("STANDARD NAMES");
    for (int v = 512; v > 0; v--) {
        char text[400] = "QUANTITY POSITION 1 TO 20 VALUES ", line[40];
        for (int i = 8; i > 0; i--) {
            snprintf(line, sizeof line, "-%d%d.25 \"t\" ", i, v);
            strcat(text, line);
        }
        strcat(text, "END VALUES");
        variable(v, text);
    }
    if (end() == ZARFOLIN_OK) {
        records();
        mended_len = sizeof mended;
        measure(mend);
        record_len = (size_t)table[ZARFOLIN_H_RECORD];
        memset(record, ' ', record_len);
        matrix_of_one();
        export_of_one();
        import_of_it();
    } else {
        fprintf(stderr, "the largest definition was refused: %d at %d\n", (int)got, (int)answer[1]);
        return 1;
    }
    /* In XML: every type, use and filter, texts of every kind; the largest table; cut short now and then. */
    sheet(0);
    for (size_t whole = def_len; def_len > 0 && whole > 0; def_len -= def_len > 97 ? 97 : def_len) {
        measure(read_definition);
    }
    sheet(0);
    if (end_of_sheet() != ZARFOLIN_OK) {
        fprintf(stderr, "the definition in XML was refused: %d at %d\n", (int)got, (int)answer[1]);
        return 1;
    }
    texts();
    records();
    files();
    sheet(ZARFOLIN_MAX_VARIABLES);
    if (end_of_sheet() != ZARFOLIN_OK) {
        fprintf(stderr, "the largest definition in XML was refused: %d at %d\n", (int)got, (int)answer[1]);
        return 1;
    }
    records();
    record_len = (size_t)table[ZARFOLIN_H_RECORD];
    memset(record, ' ', record_len);
    export_of_one();
    import_of_it();
    /* 32 levels of comments before each token of a definition, and cut short there. */
    begin("NOTE \"n\" STANDARD NAMES");
    variable(1, "MULTIPLE POSITION 1 TO 6 SPREAD 3 OF 2 NOTE \"x\" VALUES 1 TO 3 WITH NOTE \"n\" 7 \"a\" SPECIAL 5 \"b\" END VALUES");
    variable(2, "QUANTITY POSITION 1 TO 6 VALUES -1.5 TO 3.0 END VALUES");
    variable(3, "CHARACTER POSITION 1 TO 6 SIZE 5");
    add("END RECORD END SURVEY END SSS");
    const size_t whole_len = def_len;
    char *whole = malloc(whole_len);
    memcpy(whole, def, whole_len);
    for (size_t i = 15; i < whole_len; i++) {
        if (whole[i] == ' ') {
            for (int cut = 0; cut < 3; cut++) {
                memcpy(def, whole, def_len = i);
                def[def_len] = '\0';
                add(deep);
                def_len -= cut == 1 ? 5 : 0; /* comments left open */
                if (cut == 2) {
                    add("<<");
                }
                memcpy(def + def_len, whole + i, whole_len - i);
                def_len += whole_len - i;
                whole_definition();
            }
        }
    }
    free(whole);
    def_len = ZARFOLIN_MAX_DEFINITION + 1;
    whole_definition();

    int status = 0;
    for (size_t i = 0; i < CALLS; i++) {
        const struct measured *m = &calls[i];
        printf("%-26s %7zu bytes of stack at most, %6u runs; the header says %zu\n", m->name, m->most, m->runs, m->figure);
        if (m->most > m->figure) {
            printf("  more than the header says\n");
            status = 1;
        } else if (m->most + m->most / 8 + 64 < m->figure) {
            printf("  note: the header says much more\n");
        }
    }
    return status;
}
