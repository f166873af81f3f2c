/* Zarfolin: reading, judging and correcting Triple-S survey files: definitions of version 1.1 and in XML 1.2.
 *
 * The face of the verified static library, for C. Link with libzarfolin.a, which `tools/build library` builds
 * (target/staticlib) and a release has in lib/:
 *
 *     cc -Wall -Wextra -Werror -I include program.c target/staticlib/libzarfolin.a -o program
 *     cc program.c $(pkg-config --cflags --libs zarfolin) -o program
 *
 * The archive is for Linux on x86-64. This header is C89 to C23 and C++98 to C++20. examples/c/judge.c is a whole program.
 *
 * Rules that hold for every call
 *
 *   Input     Every call takes any input: any bytes, any numbers, any lengths, any row. It ends, and its answer is settled
 *             by what it is given; nothing is undefined but what breaks a rule below.
 *   Buffers   A slice goes as a pointer and a length, the length in elements: bytes for uint8_t, numbers for int64_t.
 *             Lengths stay below 2^63 bytes. Where the length is 0 nothing is read or written.
 *   NULL      No pointer may be NULL, not even where the length is 0: give the address of anything then.
 *   Alignment A pointer to int64_t is aligned to 8 bytes, also where the length is 0. One to uint8_t may stand anywhere.
 *   Overlap   No two buffers of one call may overlap, unless both are only read.
 *   Change    While a call runs nobody else may write to any of its buffers, nor read one that it writes. That counts for
 *             files mapped into memory too, which another process may change or cut short: read them into memory first.
 *   Threads   The library has no state: no variable of its own, no allocation, no lock, no errno, no locale. Calls may run
 *             at once on any threads as long as each keeps to "Change"; a table or a record that is only read may be
 *             shared by all of them. A call may be made in a signal handler, if there is stack enough.
 *   Stack     See ZARFOLIN_STACK_IMPORT below: up to 464,000 bytes. A small thread (musl gives 128 KiB) is not enough.
 *   Needs     Of the C library memcpy and memset alone.
 *   Refusal   The value returned is 0 for done, otherwise a refusal, one of ZARFOLIN_E_.. below, which zarfolin_message puts
 *             into words. zarfolin_next_record alone has its own meaning for it, and zarfolin_version has none. A later
 *             library may have further refusals: treat a number that you don't know as a refusal.
 *   Kept      A refusal leaves every buffer but `answer` as it was, and so is whatever a call doesn't say that it writes. One
 *             call alone writes beside a refusal: zarfolin_export, of a faulty data file, the lines before the fault.
 *   answer    Points to four numbers (ZARFOLIN_ANSWER), that of zarfolin_export to five (ZARFOLIN_EXPORT_ANSWER). A call that
 *             has one fills all of them each time, refused or not, and the first of them is the value returned.
 *   Counting  Rows, lines, byte places and text places count from 0; records, the locations of POSITION, and the lines and
 *             columns of comma-separated text, from 1.
 *   Encoding  Data and definitions are bytes. Outside its texts a definition means what it means in ASCII. Names, labels and
 *             texts of values are handed on undecoded, as place and length in the definition; zarfolin_decode_text drops
 *             bytes below 32 and decodes brace forms ({"} {{} {NL} {hex}), in the encoding that the sender used. Those of a
 *             definition in XML it decodes to UTF-8, whether the file is in that or in ISO-8859-1.
 *   Table     The numbers of a table are int64_t in the machine's own byte order. It is for memory, not for files: its shape
 *             belongs to ZARFOLIN_VERSION.
 *
 * Everything that ends in `;` below is proved to answer what is said of it (docs/CONTRACTS.md); where a size is said to be
 * always enough, so that a refusal can't come, that follows from it and is no theorem of its own. The inline functions at
 * the end are plain C, for convenience, and are not proved.
 */
#ifndef ZARFOLIN_H
#define ZARFOLIN_H

#include <stddef.h>
#include <stdint.h>

#ifdef __cplusplus
extern "C" {
#endif

/* ---- version ------------------------------------------------------------------------------------------------------- */

/* The version of this face. It is raised by each change that a program compiled before it would not survive: another shape
 * of the table, another meaning of a call or a number. A new call, or a refusal met in a new case, doesn't raise it. */
#define ZARFOLIN_VERSION 3

/* The version of the archive that is linked. A program asks once, when it starts:
 *
 *     if (zarfolin_version() != ZARFOLIN_VERSION) { .. header and archive don't belong together .. }
 */
uint64_t zarfolin_version(void);

/* ---- numbers ------------------------------------------------------------------------------------------------------- */

/* What the calls return. */
typedef uint64_t zarfolin_number;

/* The refusals. zarfolin_message has them in words. */
enum {
    ZARFOLIN_OK = 0,
    /* of a definition */
    ZARFOLIN_E_TOO_LONG = 1,    /* definition too long: over ZARFOLIN_MAX_DEFINITION bytes */
    ZARFOLIN_E_TOKEN = 2,       /* another token was due */
    ZARFOLIN_E_MARK = 3,        /* string or comment unclosed, bad brace form, comment of level 33; not the inside of a text
                                 * (zarfolin_decode_text) */
    ZARFOLIN_E_VERSION = 4,     /* version not 1.1; in XML neither 1.1 nor 1.2 */
    ZARFOLIN_E_IDENT = 5,       /* ident 0, over four digits, or repeated */
    ZARFOLIN_E_VALUES = 6,      /* value form wrong for its type, range reversed, decimals differ, value repeated */
    ZARFOLIN_E_POSITION = 7,    /* start 0, finish below start, subfields or SIZE 0, subfield width 0 or inexact, or
                                 * position too narrow */
    ZARFOLIN_E_LIMIT = 8,       /* another limit passed */
    ZARFOLIN_E_NAMES = 9,       /* STANDARD NAMES broken */
    ZARFOLIN_E_TABLE_ROOM = 10, /* lent table too short */
    /* of a table, a record and a value */
    ZARFOLIN_E_TABLE = 20,     /* table not well formed */
    ZARFOLIN_E_ROW = 21,       /* no such row */
    ZARFOLIN_E_SHORT = 22,     /* record shorter than ZARFOLIN_H_RECORD says */
    ZARFOLIN_E_LOW_BYTE = 23,  /* byte below 32 in the record (whole record only) */
    ZARFOLIN_E_LIST_ROOM = 25, /* lent list shorter than the set, or than the text; can't come of a set where it has
                                * ZARFOLIN_MAX_SET numbers */
    ZARFOLIN_E_TYPE = 26,      /* value of another type */
    ZARFOLIN_E_VALUE = 27,     /* value not legal */
    ZARFOLIN_E_MEMBERS = 28,   /* more members than subfields */
    /* of a part of a data file */
    ZARFOLIN_E_TERMINATOR = 29, /* number of no terminator: none of ZARFOLIN_CR_LF to ZARFOLIN_LF */
    /* of a data file */
    ZARFOLIN_E_UNENDED = 30, /* last record has no terminator */
    ZARFOLIN_E_LENGTH = 31,  /* length differs from the first record's */
    /* of a clean definition, and 40 of an export and an import */
    ZARFOLIN_E_OTHER_TABLE = 40, /* the table is not the one that the definition yields; of an export and an import also: the
                                  * definition is refused */
    ZARFOLIN_E_CLEAN_SIZE = 41,  /* clean text above ZARFOLIN_MAX_DEFINITION bytes */
    ZARFOLIN_E_CLEAN_ROOM = 42,  /* output too short for the clean text */
    /* of a definition in XML, besides 1, 2 and 4 to 10 */
    ZARFOLIN_E_XML = 50,     /* XML not well formed */
    ZARFOLIN_E_ELEMENT = 51, /* element or attribute unknown or misplaced */
    ZARFOLIN_E_USE = 52,     /* use or filter rule broken: a second serial or weight, one of a wrong type or with a filter, a filter
                              * that is not the name of just one variable before it, a LOGICAL */
    /* of an export and an import */
    ZARFOLIN_E_EXPORT_ROOM = 60, /* output too short for the text, or for the records */
    /* of an import */
    ZARFOLIN_E_MALFORMED = 61, /* text malformed: a quote inside a field that has none around it, anything but a comma or CR LF
                                * behind a closing quote, a CR or LF alone, quotes that don't close, no CR LF at the end */
    ZARFOLIN_E_NAME_LINE = 62, /* name line differs */
    ZARFOLIN_E_FIELDS = 63,    /* wrong number of fields */
    ZARFOLIN_E_FIELD = 64,     /* field not a legal value */
    /* of mending */
    ZARFOLIN_E_MEND_ROOM = 70, /* output or list too short */
    /* of a matrix */
    ZARFOLIN_E_NO_COLUMN = 80,   /* no column at all: every row is a CHARACTER */
    ZARFOLIN_E_MATRIX_SIZE = 81, /* total above ZARFOLIN_MAX_MATRIX bytes */
    ZARFOLIN_E_MATRIX_ROOM = 82, /* output too short */
    /* of a table, where its rows are written back, or all written */
    ZARFOLIN_E_SHARED = 90,  /* two rows share a value place */
    /* of a field, before 25 in the order of the calls: what is wrong with it (up to version 1 they were one number, 24) */
    ZARFOLIN_E_STRAY = 241,     /* stray byte: it cannot stand there after those to its left */
    ZARFOLIN_E_NOT_LEGAL = 242, /* not a legal value: the field's form is sound, its number neither in the range nor on a line */
    ZARFOLIN_E_POINT = 243      /* decimal point: none at its place, or one elsewhere, in a QUANTITY */
};

/* The number of a break, a new line, in a decoded text, beside the bytes 0 to 255. */
enum { ZARFOLIN_BREAK = 256 };

/* The terminators, as zarfolin_judge_part takes them. */
enum {
    ZARFOLIN_CR_LF = 1,
    ZARFOLIN_LF_CR = 2,
    ZARFOLIN_CR = 3,
    ZARFOLIN_LF = 4
};

/* What zarfolin_mend changes, as its list has it: three numbers an entry. */
enum {
    ZARFOLIN_MENDED_DROPPED = 1,    /* an empty record dropped */
    ZARFOLIN_MENDED_BYTE = 2,       /* a space for a byte below 32 */
    ZARFOLIN_MENDED_PAD = 3,        /* a record padded */
    ZARFOLIN_MENDED_TERMINATOR = 4, /* the first terminator in place of another, or of none */
    ZARFOLIN_MENDED = 3             /* the numbers of an entry */
};

/* What zarfolin_next_record returns. */
enum {
    ZARFOLIN_NO_RECORD = 0,     /* none: at or past the end of the data */
    ZARFOLIN_RECORD = 1,        /* a record with its terminator */
    ZARFOLIN_OPEN_RECORD = 2    /* a record that the data ends without a terminator */
};

/* The kinds of value that zarfolin_read_value answers. */
enum {
    ZARFOLIN_MISSING = 0,
    ZARFOLIN_IS_NUMBER = 1,
    ZARFOLIN_IS_SET = 2,
    ZARFOLIN_IS_TEXT = 3,
    ZARFOLIN_IS_TRUTH = 4
};

/* The numbers of an answer. */
#define ZARFOLIN_ANSWER 4
#define ZARFOLIN_EXPORT_ANSWER 5 /* that of zarfolin_export has one number more */

/* ---- limits -------------------------------------------------------------------------------------------------------- */

#define ZARFOLIN_MAX_DEFINITION 1048576            /* bytes of a definition */
#define ZARFOLIN_MAX_VARIABLES 512                 /* rows of a table */
#define ZARFOLIN_MAX_LINES 4096                    /* value lines of a table, over all rows */
#define ZARFOLIN_MAX_CATEGORY 9999                 /* a SINGLE's or MULTIPLE's number */
#define ZARFOLIN_MAX_SET ZARFOLIN_MAX_CATEGORY     /* members of a set: with a list of so many numbers 25 can't come */
#define ZARFOLIN_MAX_QUANTITY INT64_C(999999999999999) /* a scaled quantity, either sign */
#define ZARFOLIN_MAX_DECIMALS 9                    /* decimals of a quantity */
#define ZARFOLIN_MAX_SIZE 4096                     /* bytes of a text */
#define ZARFOLIN_MAX_LOCATION 16384                /* the last byte of a record that a row may use */
#define ZARFOLIN_MAX_LEVEL 32                      /* comments within comments */
#define ZARFOLIN_MAX_MATRIX 16777216               /* bytes of a matrix */

/* ---- the table ----------------------------------------------------------------------------------------------------- *
 *
 * A header, then the rows, one for each variable, then the lines, one for each value with a text:
 *
 *     table[ZARFOLIN_H_VARIABLES]                                    how many rows, V
 *     table[table[ZARFOLIN_H_ROWS_AT] + ZARFOLIN_ROW * row + column]    one number of a row
 *     table[table[ZARFOLIN_H_LINES_AT] + ZARFOLIN_LINE * line + column] one number of a line
 *
 * ZARFOLIN_TABLE(V, E) numbers in all. The lines of a row are ZARFOLIN_LINES in number, from ZARFOLIN_LINES_BEFORE on. */

/* The numbers of the header. */
enum {
    ZARFOLIN_H_MARK = 0,      /* ZARFOLIN_MARK or ZARFOLIN_MARK_XML */
    ZARFOLIN_H_VARIABLES = 1, /* rows, V */
    ZARFOLIN_H_LINES = 2,     /* lines, E */
    ZARFOLIN_H_RECORD = 3,    /* least length of a record, L: the highest finish */
    ZARFOLIN_H_ROWS_AT = 4,   /* where the rows start: ZARFOLIN_HEADER */
    ZARFOLIN_H_LINES_AT = 5,  /* where the lines start: ZARFOLIN_HEADER + ZARFOLIN_ROW * V */
    ZARFOLIN_HEADER = 6
};

/* The first number of every table of a 1.1 definition, and of one in XML. */
#define ZARFOLIN_MARK 11
#define ZARFOLIN_MARK_XML 12

/* The columns of a row. Those that its type lacks are 0. */
enum {
    ZARFOLIN_IDENT = 0,
    ZARFOLIN_TYPE = 1,      /* ZARFOLIN_SINGLE to ZARFOLIN_LOGICAL */
    ZARFOLIN_START = 2,     /* the locations of POSITION, from 1 */
    ZARFOLIN_FINISH = 3,
    ZARFOLIN_WIDTH = 4,     /* the value width w */
    ZARFOLIN_DECIMALS = 5,  /* of a QUANTITY */
    ZARFOLIN_POINT = 6,     /* of a QUANTITY: 0 the data has no point, 1 it has one, 2 one that no digit need stand before */
    ZARFOLIN_SUBFIELDS = 7, /* of a MULTIPLE with SPREAD; 0 for a bitstring */
    ZARFOLIN_SUBFIELD_WIDTH = 8,
    ZARFOLIN_RANGE = 9,     /* whether there is a range, 0 or 1 */
    ZARFOLIN_FROM = 10,     /* its ends, scaled by the decimals; 0 where there is none */
    ZARFOLIN_TO = 11,
    ZARFOLIN_LINES_BEFORE = 12, /* lines of the rows before this one */
    ZARFOLIN_LINES = 13,        /* lines of this row */
    ZARFOLIN_NAME = 14,         /* place and length of the undecoded text in the definition */
    ZARFOLIN_NAME_LENGTH = 15,
    ZARFOLIN_LABEL = 16,
    ZARFOLIN_LABEL_LENGTH = 17,
    ZARFOLIN_USE = 18,    /* ZARFOLIN_NO_USE to ZARFOLIN_WEIGHT; 0 in a table of a 1.1 definition */
    ZARFOLIN_FILTER = 19, /* the number plus one of the earlier LOGICAL row that filters this one, 0 where none does; 0 as above.
                           * No call reads, judges or writes otherwise for the sake of use or filter. */
    ZARFOLIN_ROW = 20
};

/* The uses of a row: at most one serial, a QUANTITY or CHARACTER, and one weight, a QUANTITY, neither with a filter. */
enum {
    ZARFOLIN_NO_USE = 0,
    ZARFOLIN_SERIAL = 1,
    ZARFOLIN_WEIGHT = 2
};

/* The types of a row. */
enum {
    ZARFOLIN_SINGLE = 1,
    ZARFOLIN_MULTIPLE = 2,
    ZARFOLIN_QUANTITY = 3,
    ZARFOLIN_CHARACTER = 4,
    ZARFOLIN_LOGICAL = 5
};

/* The columns of a line. */
enum {
    ZARFOLIN_LINE_VALUE = 0,   /* scaled by the row's decimals */
    ZARFOLIN_LINE_SPECIAL = 1, /* whether SPECIAL stands with it, 0 or 1; 0 in a table of XML */
    ZARFOLIN_LINE_TEXT = 2,    /* place and length of the undecoded text in the definition */
    ZARFOLIN_LINE_TEXT_LENGTH = 3,
    ZARFOLIN_LINE = 4
};

/* The numbers of a table of so many rows and lines, and of the largest there can be. */
#define ZARFOLIN_TABLE(variables, lines) (ZARFOLIN_HEADER + ZARFOLIN_ROW * (variables) + ZARFOLIN_LINE * (lines))
#define ZARFOLIN_MAX_TABLE ZARFOLIN_TABLE(ZARFOLIN_MAX_VARIABLES, ZARFOLIN_MAX_LINES)

/* ---- the calls ----------------------------------------------------------------------------------------------------- */

/* Reads a definition into a lent table: one in XML where it begins with `<?xml` or `<sss`, alone or behind the byte order mark of
 * UTF-8, otherwise one of version 1.1.
 *
 * Answers 0, or 1 to 10; of one in XML 0, 1, 2, 4 to 10, or 50 to 52.
 * answer: the number; its place in the definition (0 for 0, 1 and 10); V; E (both 0 when refused).
 * table:  on 0 its first ZARFOLIN_TABLE(V, E) numbers are header, rows and lines, and what lies beyond is kept. On a
 *         refusal all of it is kept. With ZARFOLIN_MAX_TABLE numbers 10 can't come.
 * def:    only read. */
zarfolin_number zarfolin_read_definition(const uint8_t *def, size_t def_len, int64_t *table, size_t table_len,
                                         int64_t *answer);

/* Writes a definition of version 1.1 anew, clean: every statement on a line of its own that CR LF ends, one space between two
 * tokens, keywords in capitals and in one order, TO for every POSITION and OF for every SPREAD; texts and numbers as they stand,
 * bytes below 32 dropped; comments, notes and what follows END SSS left out. The clean text is read without a refusal. Its table is
 * the same but for ZARFOLIN_NAME to ZARFOLIN_LABEL_LENGTH and ZARFOLIN_LINE_TEXT and its length, every text decodes to the same
 * numbers, and cleaned again it comes out as it is.
 *
 * Answers 0; or 1 to 9, as zarfolin_read_definition does of version 1.1 (one in XML is 2 at its first byte, or 1); or the first of
 * 40 (the table is not the one that the definition yields), 41 (the clean text is longer than ZARFOLIN_MAX_DEFINITION), 42 (it
 * doesn't fit) that holds.
 * answer: the number; its place in the definition (2 to 9, else 0); the length of the clean text (on 0, else 0); 0.
 * out:    on 0 the clean text from its start on; what lies beyond is kept. On a refusal all of it is kept. With
 *         ZARFOLIN_MAX_DEFINITION bytes 42 can't come.
 * def, table: only read. The table is the one that zarfolin_read_definition made of def, the places and lengths of texts included;
 *         more numbers are not looked at. */
zarfolin_number zarfolin_write_definition(const uint8_t *def, size_t def_len, const int64_t *table, size_t table_len,
                                          uint8_t *out, size_t out_len, int64_t *answer);

/* Reads one row's value from a record.
 *
 * Answers 0, or the first of 20, 21, 22, a fault of the field (241, 242 or 243), 25 that holds.
 * answer: the number; the kind (ZARFOLIN_MISSING to ZARFOLIN_IS_TRUTH); then
 *         missing      0, 0
 *         number       the number, scaled by the row's decimals; 0
 *         set          the count of members; 0
 *         text         its place in the record; its length, spaces at its end left out
 *         truth        0 or 1; 0
 *         With 241 and 243 comes the place of the byte in the record, with 242 the number, scaled, that is not legal, in the
 *         kind's stead, and both others are 0. On any other refusal all three are 0.
 * list:   a set's members stand at its start, rising; the rest is kept. Any other value and any refusal keep all of it.
 *         With ZARFOLIN_MAX_SET numbers 25 can't come.
 * table, record: only read. No byte outside the row's value places decides anything. */
zarfolin_number zarfolin_read_value(const int64_t *table, size_t table_len, uint64_t row, const uint8_t *record,
                                    size_t record_len, int64_t *list, size_t list_len, int64_t *answer);

/* Reads all rows of a record: the table is tested once.
 *
 * Answers 0, or the first of 20, 22, 25 that holds; 25 if out has fewer than ZARFOLIN_ANSWER * V numbers, or the list has no
 * room for the members of all sets together.
 * answer: the number; the members in the list; the rows refused; 0. On a refusal all three are 0.
 * out:    on 0 four numbers for each row, from out[ZARFOLIN_ANSWER * row] on: just those that zarfolin_read_value answers for it (a
 *         field's fault too, so that all faults of a record come at once), but for a set
 *             0; ZARFOLIN_IS_SET; the count of members; where they start in the list
 *         What lies beyond ZARFOLIN_ANSWER * V numbers is kept. On a refusal all of it is kept.
 * list:   on 0 the members of the sets, row after row, rising inside each; an empty set starts where the next one does.
 *         What lies beyond them is kept. On a refusal all of it is kept. For each MULTIPLE as many numbers
 *         as it has subfields, or bytes of width where it has none, are enough.
 * table, record: only read. No byte outside the rows' value places decides anything. */
zarfolin_number zarfolin_read_record(const int64_t *table, size_t table_len, const uint8_t *record, size_t record_len,
                                     int64_t *out, size_t out_len, int64_t *list, size_t list_len, int64_t *answer);

/* Decodes a text of a definition: a name, a label or a line's text, by its place and length in the table.
 *
 * Answers 0, or the first of 3, 25 that holds.
 * answer: the number; the count of signs; 0; 0. On a refusal all behind the number are 0.
 * list:   on 0 the signs stand at its start, a byte as itself, a new line ({NL}, in XML <br/>) as ZARFOLIN_BREAK; the rest is kept.
 *         On a refusal all of it is kept. A text has at most as many signs as bytes, in XML twice as many (a byte of ISO-8859-1 may
 *         be two of UTF-8): room for 2 * `length` numbers is always enough.
 * place, length: any. 3 where the bytes of that length from that place are not the inside of a text: they pass the definition's
 *         end, hold a quote outside a brace form, or a bad or unfinished form; in XML where they are not whole characters,
 *         references, comments, <br/> and <text> elements. What a table that was read from this definition has of a text is
 *         never 3. In XML the texts of other languages, which stand in <text>, say nothing.
 * def:    only read. */
zarfolin_number zarfolin_decode_text(const uint8_t *def, size_t def_len, uint64_t place, uint64_t length, int64_t *list,
                                     size_t list_len, int64_t *answer);

/* Judges a whole record.
 *
 * Answers 0, or the first of 20, 22, 23, a fault of the lowest faulty row (241, 242 or 243) that holds.
 * answer: the number; the place of the first byte below 32 for 23, the row of a fault, otherwise 0; of a fault the byte's place
 *         (241, 243) or the number, scaled, that is not legal (242), otherwise 0; 0.
 * table, record: only read. */
zarfolin_number zarfolin_judge_record(const int64_t *table, size_t table_len, const uint8_t *record,
                                      size_t record_len, int64_t *answer);

/* The five writes: one row's value into a record.
 *
 * Answer 0, or the first of 20, 21, 22, 26, 27, 28 that holds.
 * record: on 0 the row's value places hold the value and every other byte is kept; on a refusal all of it is kept. No
 *         byte of the record decides anything.
 * table, list, text: only read. */

/* Missing: spaces. Fits every type, so 26 to 28 can't come. */
zarfolin_number zarfolin_write_missing(const int64_t *table, size_t table_len, uint64_t row, uint8_t *record,
                                       size_t record_len);

/* A number, for SINGLE and QUANTITY (scaled by the row's decimals); 27 if neither in the range nor on a line. */
zarfolin_number zarfolin_write_number(const int64_t *table, size_t table_len, uint64_t row, int64_t number,
                                      uint8_t *record, size_t record_len);

/* A truth, 0 or 1, for LOGICAL; 27 for another number. */
zarfolin_number zarfolin_write_truth(const int64_t *table, size_t table_len, uint64_t row, uint8_t truth,
                                     uint8_t *record, size_t record_len);

/* A set, for MULTIPLE; 27 if it isn't strictly rising or a member isn't legal, 28 if it has more members than the row
 * has subfields. */
zarfolin_number zarfolin_write_set(const int64_t *table, size_t table_len, uint64_t row, const int64_t *list,
                                   size_t list_len, uint8_t *record, size_t record_len);

/* A text, for CHARACTER; 27 unless it has 1 to w bytes of 32 to 255 with no space at its end. */
zarfolin_number zarfolin_write_text(const int64_t *table, size_t table_len, uint64_t row, const uint8_t *text,
                                    size_t text_len, uint8_t *record, size_t record_len);

/* Judges a whole data file.
 *
 * Answers 0, or 20, or for the first faulty record the first of 30, 31, 22, 23, a fault of its lowest faulty row (241, 242 or
 * 243) that holds.
 * answer: the number; the count of records on 0, otherwise the faulty record from 1 (0 for 20); the row of 241 to 243,
 *         otherwise 0; the byte's place in the record for 23, 241 and 243, the number, scaled, for 242, otherwise 0.
 * table, data: only read. */
zarfolin_number zarfolin_judge_file(const int64_t *table, size_t table_len, const uint8_t *data, size_t data_len,
                                    int64_t *answer);

/* Judges a part of a data file: for files read in blocks, or judged on many cores.
 *
 * The part begins where a record does. terminator: that of the file, ZARFOLIN_CR_LF to ZARFOLIN_LF; first_len: the length of
 * the file's first record, without its terminator. last: 0 where more of the file follows: a record that the part ends
 * without is then left alone; any other number: it is 30.
 * Answers 0, or 20, or 29, or for the part's first faulty record the first of 30, 31, 22, 23, 241 to 243 that holds.
 * answer: as zarfolin_judge_file's, the records counted in the part; zeros behind 29.
 * On 0 the part left off behind its count of records: `count * (first_len + size)` bytes from its start, where size is 2 for
 * ZARFOLIN_CR_LF and ZARFOLIN_LF_CR, 1 for the others. The next part begins there. The parts of a file give its own answer:
 * the first fault, its record counted on by the parts before, or the sum of the counts.
 * table, data: only read. */
zarfolin_number zarfolin_judge_part(const int64_t *table, size_t table_len, const uint8_t *data, size_t data_len,
                                    uint64_t terminator, uint64_t first_len, uint64_t last, int64_t *answer);

/* Finds the record that starts at `from`, by the terminator that the file's first CR or LF settles.
 *
 * Answers ZARFOLIN_RECORD, ZARFOLIN_OPEN_RECORD or ZARFOLIN_NO_RECORD; there is no refusal.
 * answer: the number; the record's start; its end; where the next record starts (for an open one the end of the data).
 *         All 0 where there is none.
 * data:   only read. */
zarfolin_number zarfolin_next_record(const uint8_t *data, size_t data_len, uint64_t from, int64_t *answer);

/* A value that a correction gives: its kind, ZARFOLIN_MISSING, ZARFOLIN_IS_NUMBER or ZARFOLIN_IS_TRUTH; and the number, scaled
 * by the row's decimals, or the truth, 0 or 1. Beside missing the number is not looked at. */
struct zarfolin_given {
    uint64_t kind;
    int64_t number;
};

/* A correction: 32 bytes, aligned to 8. zarfolin_correct sets the mark; what it held before is not looked at. */
struct zarfolin_correction {
    uint64_t row;
    struct zarfolin_given value;
    uint64_t mark;
};

/* Writes a list of corrections into a record, in the list's order: the table is tested once.
 *
 * Answers 0, or the first of 20, 22 that holds, for an empty list too; both turn the whole list away.
 * corrections: on 0 each has its mark, 0 where it is done, or the first of 21, 26, 27 that holds: what the single write answers.
 *         26 too for a kind that is none of the three, and for what is no truth in a row that takes none; 27 for what is no
 *         truth in a LOGICAL. A refusal stops nothing. Rows and values are kept. On 20 and 22 every mark is kept.
 * record: on 0 what the single writes of the list, one after the other, leave: of one row's corrections the later accepted one
 *         counts. On 20 and 22 all of it is kept. No byte of the record decides anything.
 * table:  only read. */
zarfolin_number zarfolin_correct(const int64_t *table, size_t table_len, struct zarfolin_correction *corrections,
                                 size_t count, uint8_t *record, size_t record_len);

/* Gives a record its normal form, in place: every row is written back as it reads. Two records of one length that agree outside
 * the value places have equal normal forms exactly when all their rows read equal.
 *
 * A missing value gives spaces (a SINGLE of zeros too), numbers get zeros in front, the members of a spread rise with zeros
 * behind them; bitstrings, texts and truths keep their bytes, and so does every byte outside the value places. All rows read
 * as before, and a second pass changes nothing.
 * Answers 0, or the first of 20, 90, 22, 23, 241, 242, 243 that holds.
 * answer: as zarfolin_judge_record's; zeros behind 90.
 * table:  only read.
 * record: its normal form on 0; kept on a refusal. */
zarfolin_number zarfolin_normal(const int64_t *table, size_t table_len, uint8_t *record, size_t record_len,
                                int64_t *answer);

/* Mends a damaged data file: each CR LF, LF CR, CR or LF ends a record, pairs first; empty records are dropped, bytes below 32
 * become spaces, every record is padded with spaces to the longest and at least to ZARFOLIN_H_RECORD, and ended by the first
 * terminator of the data (CR LF if it has none).
 *
 * Answers 0, or 20, or 70 where the output or the list is too short.
 * answer: the number; how many bytes the output got; how many entries the list got; 0. Zeros behind 20 and 70.
 * out:    on 0 the mended data from its start on. Data whose line ends, lengths and bytes are sound comes out as it is.
 * list:   on 0 three numbers an entry, in the order of the data: what was changed (ZARFOLIN_MENDED_DROPPED and on); the record,
 *         from 1, dropped ones counted; the place in the data from 0: that of the byte, or the record's end.
 * Beyond what is written, and on 20 and 70 everywhere, out and list are kept. table, data: only read. */
zarfolin_number zarfolin_mend(const int64_t *table, size_t table_len, const uint8_t *data, size_t data_len, uint8_t *out,
                              size_t out_len, int64_t *list, size_t list_len, int64_t *answer);

/* Writes a data file as a matrix of 64-bit floats, for statistics. A SINGLE, QUANTITY or LOGICAL makes one column, a MULTIPLE
 * one for each defined category, rising, with 0 or 1, a CHARACTER none; they stand in the order of the rows. All numbers are
 * little-endian, whatever the machine, and the parts adjoin (R records, C columns):
 *
 *     header     six numbers of 32 bits: R, C, and where summaries, presence bytes and values start, and the total length
 *     summaries  24 bytes a column: the count present (64 bits), then the smallest and largest present value as floats, both 0.0
 *                where there is none
 *     presence   a byte each, record by record in column order: 0 for missing, else 1, for the empty set too
 *     values     8 bytes each, alike: the scaled number divided once by its power of ten; 0.0 for missing
 *
 * Answers 0, or 20, or the file's own refusal (as zarfolin_judge_file answers it), or the first of 80, 81, 82 that holds.
 * answer: the number; the total, 24 + 24 C + 9 R C; R; C. Zeros behind 80, 81 and 82.
 * out:    on 0 the matrix from its start on; what lies beyond is kept. On a refusal all of it is kept. With
 *         ZARFOLIN_MAX_MATRIX bytes 82 can't come.
 * table, data: only read. */
zarfolin_number zarfolin_matrix(const int64_t *table, size_t table_len, const uint8_t *data, size_t data_len, uint8_t *out,
                                size_t out_len, int64_t *answer);

/* Writes a data file as comma-separated text (RFC 4180): a line of the names, and a line for each record before the first fault, CR LF at
 * the end of each. A name is written as it is decoded, a break as one LF. A number has a digit or more before the point without needless
 * zeros, its decimals, and no point where there are none; a set is its codes with `;` between them, or `none`; missing is an empty field;
 * a truth is 0 or 1; a text or name with a comma, a quote, CR or LF stands in quotes, its own quotes doubled.
 *
 * Answers 0; or the first of 20, 40 (the definition yields another table, or is refused), 60 (the text does not fit); or what
 * zarfolin_judge_file answers, with the lines before the fault in out.
 * answer: FIVE numbers: the four that zarfolin_judge_file tells, and the length of the text. Zeros behind 20, 40 and 60.
 * out:    the text from its start on; what lies beyond is kept. On 20, 40 and 60 all of it is kept.
 * def, table, data: only read. The table is the one that zarfolin_read_definition made of def; more numbers are not looked at. */
zarfolin_number zarfolin_export(const uint8_t *def, size_t def_len, const int64_t *table, size_t table_len, const uint8_t *data,
                                size_t data_len, uint8_t *out, size_t out_len, int64_t *answer);

/* Reads comma-separated text as zarfolin_export writes it, and builds a record for each line behind the names: ZARFOLIN_H_RECORD
 * bytes, spaces where nothing is written, every row's value as the write of its type puts it, CR LF. The rows of an exported sound
 * file read as before.
 *
 * The names are compared byte by byte with those that zarfolin_export writes. A field is a value when it is what zarfolin_export
 * writes for a value that the row takes; it may stand in quotes without need, and zeros may be cut from the end of a number's
 * decimals, with the point where none is left (12.50 is 12.5 too, 12.00 is 12): spreadsheets do so. An empty field is missing.
 * Answers 0; or the first of 20, 40 (the definition yields another table, or is refused), 90 that holds; or for the first line that
 * is refused the lowest of 61 to 64; or 60 (the records do not fit).
 * answer: the number; on 0 how many records there are, and how many bytes; for 61 to 64 the line, from 1, that of the names being 1
 *         and a line end inside quotes no line's; the column, from 1: of 61 and 64 the field's, of 62 the first that differs or is
 *         on one side only, of 63 the first that is missing or too many; otherwise zeros.
 * out:    on 0 the records from its start on; what lies beyond is kept. On a refusal all of it is kept. With as many times
 *         ZARFOLIN_H_RECORD + 2 bytes as the text has LF, 60 can't come.
 * def, table, text: only read. The table is the one that zarfolin_read_definition made of def; more numbers are not looked at. */
zarfolin_number zarfolin_import(const uint8_t *def, size_t def_len, const int64_t *table, size_t table_len, const uint8_t *text,
                                size_t text_len, uint8_t *out, size_t out_len, int64_t *answer);

/* ---- stack --------------------------------------------------------------------------------------------------------- *
 *
 * The most bytes of stack that a call took, rounded up, its own return address included, memcpy and memset too. Measured,
 * not proved: on painted stacks, over the inputs of tests/c/stack.c, which the merge gate holds to these figures. Not
 * counted is what the dynamic linker takes where it binds memcpy at a first call. No function of the archive calls itself
 * but the one that skips comments, at most ZARFOLIN_MAX_LEVEL deep, so leave some room and no more. */
#define ZARFOLIN_STACK_READ_DEFINITION 270000
#define ZARFOLIN_STACK_WRITE_DEFINITION 270000
#define ZARFOLIN_STACK_DECODE_TEXT 1900
#define ZARFOLIN_STACK_READ_VALUE 38000
#define ZARFOLIN_STACK_READ_RECORD 102000
#define ZARFOLIN_STACK_JUDGE_RECORD 27500
#define ZARFOLIN_STACK_WRITE 17600
/* A write to a row that is no MULTIPLE, where the idents and each row's values rise, or are 24 at most. */
#define ZARFOLIN_STACK_WRITE_PLAIN 1100
#define ZARFOLIN_STACK_CORRECT 17600
#define ZARFOLIN_STACK_NORMAL 102000
#define ZARFOLIN_STACK_JUDGE_FILE 27500
#define ZARFOLIN_STACK_JUDGE_PART 27500
#define ZARFOLIN_STACK_MEND 17600
#define ZARFOLIN_STACK_MATRIX 129000
#define ZARFOLIN_STACK_EXPORT 358000
#define ZARFOLIN_STACK_IMPORT 464000
#define ZARFOLIN_STACK_NEXT_RECORD 128
#define ZARFOLIN_STACK_VERSION 16

/* ---- in plain C, for convenience: no part of the archive, and not proved --------------------------------------------- */

#if defined(__cplusplus) || (defined(__STDC_VERSION__) && __STDC_VERSION__ >= 199901L)
#define ZARFOLIN_INLINE static inline
#elif defined(__GNUC__)
#define ZARFOLIN_INLINE static __inline__
#else
#define ZARFOLIN_INLINE static
#endif

/* A row and a line of a table that zarfolin_read_definition filled. */
ZARFOLIN_INLINE const int64_t *zarfolin_row(const int64_t *table, size_t row) {
    return table + table[ZARFOLIN_H_ROWS_AT] + ZARFOLIN_ROW * row;
}

ZARFOLIN_INLINE const int64_t *zarfolin_line(const int64_t *table, size_t line) {
    return table + table[ZARFOLIN_H_LINES_AT] + ZARFOLIN_LINE * line;
}

/* A refusal in words, in ASCII; it is never NULL and never freed. */
ZARFOLIN_INLINE const char *zarfolin_message(zarfolin_number number) {
    switch (number) {
    case ZARFOLIN_OK: return "done";
    case ZARFOLIN_E_TOO_LONG: return "the definition is longer than 1,048,576 bytes";
    case ZARFOLIN_E_TOKEN: return "another word, number or text was due here";
    case ZARFOLIN_E_MARK:
        return "a string or comment is not closed, has a bad brace form, or is a comment of level 33, or these bytes are no text";
    case ZARFOLIN_E_VERSION: return "the version is not 1.1 (or, in XML, 1.2)";
    case ZARFOLIN_E_IDENT: return "the ident is 0, has over four digits, or is repeated";
    case ZARFOLIN_E_VALUES:
        return "the value has the wrong form for its type, reverses its range, differs in decimals, or is repeated";
    case ZARFOLIN_E_POSITION:
        return "the position starts at 0, ends before it starts, has 0 subfields or bytes, is not a multiple of its "
               "subfields, or is too narrow for its values";
    case ZARFOLIN_E_LIMIT: return "a limit is passed";
    case ZARFOLIN_E_NAMES: return "the name is no standard name, or agrees with an earlier one";
    case ZARFOLIN_E_TABLE_ROOM: return "the lent table is too short for this definition";
    case ZARFOLIN_E_TABLE: return "the table is not well formed";
    case ZARFOLIN_E_ROW: return "there is no such row";
    case ZARFOLIN_E_SHORT: return "the record is shorter than its definition needs";
    case ZARFOLIN_E_LOW_BYTE: return "the record has a byte below 32";
    case ZARFOLIN_E_LIST_ROOM: return "the lent list is too short for this set or text";
    case ZARFOLIN_E_TYPE: return "the value does not fit the variable's type";
    case ZARFOLIN_E_VALUE: return "the value is not legal for this variable";
    case ZARFOLIN_E_MEMBERS: return "the set has more members than the variable has subfields";
    case ZARFOLIN_E_TERMINATOR: return "no terminator has this number";
    case ZARFOLIN_E_UNENDED: return "the last record has no terminator";
    case ZARFOLIN_E_LENGTH: return "the record's length differs from the first record's";
    case ZARFOLIN_E_OTHER_TABLE: return "the table is not the one that this definition yields";
    case ZARFOLIN_E_CLEAN_SIZE: return "the clean definition is longer than 1,048,576 bytes";
    case ZARFOLIN_E_CLEAN_ROOM: return "the lent output is too short for the clean definition";
    case ZARFOLIN_E_XML: return "the XML is not well formed here";
    case ZARFOLIN_E_ELEMENT: return "this element or attribute is unknown, or may not stand here";
    case ZARFOLIN_E_USE: return "the use or the filter breaks its rule";
    case ZARFOLIN_E_EXPORT_ROOM: return "the lent output is too short for the exported text or the imported records";
    case ZARFOLIN_E_MALFORMED:
        return "the text is malformed: a quote or a line end stands where none may, or it ends within a line";
    case ZARFOLIN_E_NAME_LINE: return "the name line is not that of this definition";
    case ZARFOLIN_E_FIELDS: return "the line has another number of fields than there are variables";
    case ZARFOLIN_E_FIELD: return "the field is not a legal value of its variable";
    case ZARFOLIN_E_MEND_ROOM: return "the lent output or list is too short for the mended file";
    case ZARFOLIN_E_NO_COLUMN: return "the matrix has no column, since every variable is a text";
    case ZARFOLIN_E_MATRIX_SIZE: return "the matrix is longer than 16,777,216 bytes";
    case ZARFOLIN_E_MATRIX_ROOM: return "the lent output is too short for the matrix";
    case ZARFOLIN_E_SHARED: return "two variables share a value place";
    case ZARFOLIN_E_STRAY: return "the field has a byte that cannot stand there";
    case ZARFOLIN_E_NOT_LEGAL: return "the field holds a number that is neither in the range nor on a line";
    case ZARFOLIN_E_POINT: return "the field has no decimal point at its place, or one elsewhere";
    default: return "refused for a reason that this header does not know";
    }
}

#ifdef __cplusplus
}
#endif

#endif
