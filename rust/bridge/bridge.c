/* The library behind two pipes, for comparing where it can't be linked: the archive is for x86-64, and on another machine
 * this program runs under an emulator while the tests run outside it.
 *
 * A request: nine 64-bit numbers (call, row or from, number, the lengths of table, list, bytes, text and out, last), then
 * the table, the list, the bytes, the text and out themselves. A reply: the number returned, the four answers, 1 if
 * anything changed that the call may not change (an input, or a byte around a buffer), then the buffer that the call may
 * change (of two the list, then out, the bytes or the text, where mended data, a matrix, an export, a clean definition or
 * imported records stand). All numbers as this machine lays them out: little-endian. Ends when its input ends. */
#include "zarfolin.h"

#include <stdio.h>
#include <stdlib.h>
#include <string.h>

#define AROUND 64
#define ANSWER INT64_C(0x7a6172666f6c696e)

enum { READ_DEFINITION, READ_VALUE, JUDGE_RECORD, WRITE_MISSING, WRITE_NUMBER, WRITE_TRUTH, WRITE_SET, WRITE_TEXT, JUDGE_FILE, NEXT_RECORD,
       READ_RECORD, DECODE_TEXT, JUDGE_PART, CORRECT, NORMAL, MEND, MATRIX, EXPORT,
       WRITE_DEFINITION, IMPORT };

static int take(void *to, size_t length) { return length == 0 || fread(to, 1, length, stdin) == length; }

static void give(const void *from, size_t length) {
    if (length != 0 && fwrite(from, 1, length, stdout) != length) {
        exit(3);
    }
}

/* A buffer with bytes around it, and a copy of how it was. */
struct lent {
    uint8_t *all;
    uint8_t *copy;
    size_t room;
    size_t length;
};

static int fill(struct lent *b, size_t length) {
    const size_t need = length + 2 * AROUND;
    if (b->room < need) {
        free(b->all);
        free(b->copy);
        b->room = 2 * need;
        b->all = malloc(b->room);
        b->copy = malloc(b->room);
        if (b->all == NULL || b->copy == NULL) {
            exit(4);
        }
    }
    b->length = length;
    memset(b->all, 0xa5, AROUND);
    memset(b->all + AROUND + length, 0xa5, AROUND);
    if (!take(b->all + AROUND, length)) {
        return 0;
    }
    memcpy(b->copy, b->all, need);
    return 1;
}

static uint8_t *inner(const struct lent *b) { return b->all + AROUND; }

/* Whether the bytes around it are as they were, and unless it may change the buffer too. */
static int kept(const struct lent *b, int may_change) {
    if (!may_change) {
        return memcmp(b->all, b->copy, b->length + 2 * AROUND) == 0;
    }
    return memcmp(b->all, b->copy, AROUND) == 0 &&
           memcmp(b->all + AROUND + b->length, b->copy + AROUND + b->length, AROUND) == 0;
}

int main(void) {
    static struct lent table, list, bytes, text, out;
    uint64_t head[9];
    while (take(head, sizeof head)) {
        if (!fill(&table, head[3] * 8) || !fill(&list, head[4] * 8) || !fill(&bytes, head[5]) || !fill(&text, head[6]) ||
            !fill(&out, head[7] * 8)) {
            return 2;
        }
        int64_t answer[4 + 2] = {ANSWER, ANSWER, ANSWER, ANSWER, ANSWER, ANSWER};
        int64_t *a = answer + 1;
        int64_t *t = (int64_t *)(void *)inner(&table);
        int64_t *l = (int64_t *)(void *)inner(&list);
        uint8_t *b = inner(&bytes);
        const uint64_t row = head[1];
        struct lent *may_change = NULL, *may_too = NULL;
        zarfolin_number number;
        switch (head[0]) {
        case READ_DEFINITION:
            may_change = &table;
            number = zarfolin_read_definition(b, head[5], t, head[3], a);
            break;
        case READ_VALUE:
            may_change = &list;
            number = zarfolin_read_value(t, head[3], row, b, head[5], l, head[4], a);
            break;
        case JUDGE_RECORD:
            number = zarfolin_judge_record(t, head[3], b, head[5], a);
            break;
        case WRITE_MISSING:
            may_change = &bytes;
            number = zarfolin_write_missing(t, head[3], row, b, head[5]);
            break;
        case WRITE_NUMBER:
            may_change = &bytes;
            number = zarfolin_write_number(t, head[3], row, (int64_t)head[2], b, head[5]);
            break;
        case WRITE_TRUTH:
            may_change = &bytes;
            number = zarfolin_write_truth(t, head[3], row, (uint8_t)head[2], b, head[5]);
            break;
        case WRITE_SET:
            may_change = &bytes;
            number = zarfolin_write_set(t, head[3], row, l, head[4], b, head[5]);
            break;
        case WRITE_TEXT:
            may_change = &bytes;
            number = zarfolin_write_text(t, head[3], row, inner(&text), head[6], b, head[5]);
            break;
        case JUDGE_FILE:
            number = zarfolin_judge_file(t, head[3], b, head[5], a);
            break;
        case NEXT_RECORD:
            number = zarfolin_next_record(b, head[5], row, a);
            break;
        case READ_RECORD:
            may_change = &list;
            may_too = &out;
            number = zarfolin_read_record(t, head[3], b, head[5], (int64_t *)(void *)inner(&out), head[7], l, head[4], a);
            break;
        case DECODE_TEXT:
            may_change = &list;
            number = zarfolin_decode_text(b, head[5], row, head[2], l, head[4], a);
            break;
        case JUDGE_PART:
            number = zarfolin_judge_part(t, head[3], b, head[5], row, head[2], head[8], a);
            break;
        case CORRECT:
            may_change = &list;
            may_too = &bytes;
            number = zarfolin_correct(t, head[3], (struct zarfolin_correction *)(void *)l, head[4] / 4, b, head[5]);
            break;
        case NORMAL:
            may_change = &bytes;
            number = zarfolin_normal(t, head[3], b, head[5], a);
            break;
        case MEND:
            may_change = &list;
            may_too = &text;
            number = zarfolin_mend(t, head[3], b, head[5], inner(&text), head[6], l, head[4], a);
            break;
        case MATRIX:
            may_too = &text;
            number = zarfolin_matrix(t, head[3], b, head[5], inner(&text), head[6], a);
            break;
        case EXPORT: {
            /* The definition stands before the data, the fifth number goes to the list. */
            int64_t five[5 + 2] = {ANSWER, ANSWER, ANSWER, ANSWER, ANSWER, ANSWER, ANSWER};
            may_change = &list;
            may_too = &text;
            number = zarfolin_export(b, row, t, head[3], b + row, head[5] - row, inner(&text), head[6], five + 1);
            memcpy(a, five + 1, 32);
            if (head[4] != 1 || five[0] != ANSWER || five[6] != ANSWER) {
                return 2;
            }
            l[0] = five[5];
            break;
        }
        case WRITE_DEFINITION:
            may_too = &text;
            number = zarfolin_write_definition(b, head[5], t, head[3], inner(&text), head[6], a);
            break;
        case IMPORT:
            /* The definition stands before the text. */
            may_too = &text;
            number = zarfolin_import(b, row, t, head[3], b + row, head[5] - row, inner(&text), head[6], a);
            break;
        default:
            return 2;
        }
        const uint64_t returned = number;
        const uint64_t touched = !kept(&table, may_change == &table) || !kept(&list, may_change == &list) ||
                                 !kept(&bytes, may_change == &bytes || may_too == &bytes) || !kept(&text, may_too == &text) || !kept(&out, may_too == &out) ||
                                 answer[0] != ANSWER || answer[5] != ANSWER;
        give(&returned, 8);
        give(a, 32);
        give(&touched, 8);
        if (may_change != NULL) {
            give(inner(may_change), may_change->length);
        }
        if (may_too != NULL) {
            give(inner(may_too), may_too->length);
        }
        if (fflush(stdout) != 0) {
            return 3;
        }
    }
    return 0;
}
