/*
 * The reader in C, as one would write it down: a loop over the bytes, and what has been seen of the field that a byte stands in.
 */
#include "csv_in_c.h"

enum { MOST_FIELDS = 32, NOT_TEXT = 11, OTHER_COUNT = 12, TOO_MANY = 13 };

enum seen {
    LINE_START,  /* nothing of the line */
    FIELD_START, /* the comma before the field */
    PLAIN,       /* bytes of a field without quotes */
    INSIDE,      /* the opening quote of a field */
    CLOSED,      /* a quote inside it: its end, or the first of two */
    RETURN       /* the CR of a line end */
};

static int is_text(uint8_t byte)
{
    return byte >= ' ' && byte != '"' && byte != ',' && byte != 0x7F;
}

static uint64_t refused(uint64_t number, size_t place, uint64_t answer[2])
{
    answer[0] = place;
    answer[1] = 0;
    return number;
}

/* Counts a row of so many fields. 0 where the first row has another count. */
static int count_row(uint64_t fields, uint64_t *rows, uint64_t *columns)
{
    if (*rows == 0)
        *columns = fields;
    (*rows)++;
    return fields == *columns;
}

uint64_t csv_in_c_read(const uint8_t *text, size_t text_len, uint64_t answer[2])
{
    enum seen seen = LINE_START;
    uint64_t rows = 0, columns = 0, fields = 1;

    for (size_t i = 0; i < text_len; i++) {
        const uint8_t byte = text[i];
        switch (seen) {
        case INSIDE:
            if (byte == '"')
                seen = CLOSED;
            else if (!is_text(byte) && byte != ',' && byte != '\r' && byte != '\n')
                return refused(NOT_TEXT, i, answer);
            continue;
        case RETURN:
            if (byte != '\n')
                return refused(NOT_TEXT, i, answer);
            seen = LINE_START;
            continue;
        default:
            break;
        }
        if (byte == ',') {
            if (fields == MOST_FIELDS)
                return refused(TOO_MANY, i, answer);
            fields++;
            seen = FIELD_START;
        } else if (byte == '\r') {
            if (seen != LINE_START && !count_row(fields, &rows, &columns))
                return refused(OTHER_COUNT, i, answer);
            fields = 1;
            seen = RETURN;
        } else if (byte == '"') {
            if (seen == PLAIN)
                return refused(NOT_TEXT, i, answer);
            seen = INSIDE;
        } else if (is_text(byte) && seen != CLOSED) {
            seen = PLAIN;
        } else {
            return refused(NOT_TEXT, i, answer);
        }
    }

    if (seen == INSIDE || seen == RETURN)
        return refused(NOT_TEXT, text_len, answer);
    if (seen != LINE_START && !count_row(fields, &rows, &columns))
        return refused(OTHER_COUNT, text_len, answer);
    answer[0] = rows;
    answer[1] = columns;
    return 0;
}
