/*
 * The calls of orders.h from C: readings with their counts or refusals, fields by row and column, the walk over all fields, contents to
 * targets of any length; each refusal, with the earliest place and there the lowest number, and with nothing written but what the header
 * says. Every text, part and target stands at the end of memory that may be touched, so that a call that goes past it ends the program.
 * What is expected was worked out by hand from the grammar.
 */
#define _DEFAULT_SOURCE

#include "orders.h"

#include "check.h"

#include <inttypes.h>
#include <stdio.h>
#include <stdlib.h>
#include <string.h>
#include <sys/mman.h>
#include <unistd.h>

#define ONES UINT64_MAX

/* What stands in words before a call, and around them. */
#define KEPT UINT64_C(0x5AA55AA5C33CC33C)

/* A string and its length, for a call's text. */
#define TEXT(string) (string), sizeof(string) - 1

enum { LONGEST = 4096, ROWS = 100 };

/* The end of an area of LONGEST bytes; the page behind it may not be touched. */
static uint8_t *area_end(void)
{
    const size_t page = (size_t)sysconf(_SC_PAGESIZE), size = (LONGEST + page - 1) / page * page;
    uint8_t *area = mmap(NULL, size + page, PROT_READ | PROT_WRITE, MAP_PRIVATE | MAP_ANONYMOUS, -1, 0);

    if (area == MAP_FAILED || mprotect(area + size, page, PROT_NONE) != 0) {
        perror("orders: the areas");
        exit(1);
    }
    return area + size;
}

/* The ends of an area that is only read by the calls, and of one that they write. */
static uint8_t *read_end, *written_end;

static const uint8_t *lent(const void *bytes, size_t length)
{
    memcpy(read_end - length, bytes, length);
    return read_end - length;
}

static void expect_words(const uint64_t words[4], uint64_t first, uint64_t second, const char *what, const char *text)
{
    if (words[1] != first || words[2] != second)
        printf("orders: %s: %" PRIu64 ", %" PRIu64 " and not %" PRIu64 ", %" PRIu64 ": %s\n", what, words[1], words[2], first, second, text);
    expect(words[1] == first && words[2] == second, what);
    expect(words[0] == KEPT && words[3] == KEPT, "the words around those of an answer are kept");
}

static void expect_reading(const char *text, size_t length, uint64_t number, uint64_t first, uint64_t second)
{
    uint64_t words[4] = {KEPT, KEPT, KEPT, KEPT};
    const uint64_t found = orders_read(lent(text, length), length, words + 1);

    if (found != number)
        printf("orders: %" PRIu64 " and not %" PRIu64 ": %s\n", found, number, text);
    expect(found == number, "the number of a reading");
    expect_words(words, first, second, "the words of a reading", text);
    expect(memcmp(read_end - length, text, length) == 0, "a text is only read");
}

static void expect_part(const char *text, size_t length, size_t row, size_t column, uint64_t start, uint64_t part_length)
{
    uint64_t words[4] = {KEPT, KEPT, KEPT, KEPT};

    orders_part(lent(text, length), length, row, column, words + 1);
    expect_words(words, start, part_length, "the words of a part", text);
}

/* The content of a part, or a refusal, with a target of this length: its front is the content, the rest is as it was. */
static void expect_content(const char *part, size_t length, size_t target_len, uint64_t number, const char *content, size_t content_len)
{
    uint8_t *target = written_end - target_len, want[LONGEST];
    uint64_t written[3] = {KEPT, KEPT, KEPT};

    for (size_t i = 0; i < 64; i++)
        written_end[-1 - (ptrdiff_t)i] = (uint8_t)(17 * i + 3);
    memcpy(want, written_end - 64, 64);
    memcpy(want + 64 - target_len, content, content_len);
    const uint64_t found = orders_content(lent(part, length), length, target, target_len, written + 1);
    if (found != number)
        printf("orders: content: %" PRIu64 " and not %" PRIu64 ": %s\n", found, number, part);
    expect(found == number, "the number of a content");
    expect(written[1] == content_len, "the byte count of a content");
    expect(written[0] == KEPT && written[2] == KEPT, "the words around a byte count are kept");
    expect(memcmp(written_end - 64, want, 64) == 0, "the bytes of a content, and all others as they were");
    expect(memcmp(read_end - length, part, length) == 0, "a part is only read");
}

static void test_names(void)
{
    expect(ORDERS_ACCEPTED == 0 && ORDERS_REFUSED_TARGET_SHORTER == 5 && ORDERS_REFUSED_NOT_CSV == 11 && ORDERS_REFUSED_RAGGED_ROW == 12
               && ORDERS_REFUSED_TOO_MANY_FIELDS == 13,
           "the names of the numbers");
    expect(ORDERS_MOST_FIELDS == 32, "the most fields of a row");
}

/* Texts that are accepted: rows and columns. */
static void test_accepted(void)
{
    expect_reading(TEXT(""), 0, 0, 0);
    expect_reading(TEXT("\r\n"), 0, 0, 0);
    expect_reading(TEXT("\r\n\r\n"), 0, 0, 0);
    expect_reading(TEXT("a"), 0, 1, 1);
    expect_reading(TEXT("\"\""), 0, 1, 1);
    expect_reading(TEXT(","), 0, 1, 2);
    expect_reading(TEXT("a,b\r\nc,d\r\n"), 0, 2, 2);
    expect_reading(TEXT("\r\na,b\r\n\r\nc,d\r\n\r\n"), 0, 2, 2);
    expect_reading(TEXT("\"a,\r\n\"\"b\"\"\",\r\n,\"\""), 0, 2, 2);
    expect_reading(TEXT("\x80,\xFF,~ !"), 0, 1, 3);
}

/* Texts that are refused: the number, and its place. */
static void test_refused(void)
{
    expect_reading(TEXT("\n"), 11, 0, 0);
    expect_reading(TEXT("a\""), 11, 1, 0);
    expect_reading(TEXT("\"a\"b"), 11, 3, 0);
    expect_reading(TEXT("a\rb"), 11, 2, 0);
    expect_reading(TEXT("a\x7F"), 11, 1, 0);
    expect_reading(TEXT("\"\0\""), 11, 1, 0);
    expect_reading(TEXT("\"a,"), 11, 3, 0);
    expect_reading(TEXT("\"a\"\""), 11, 4, 0);
    expect_reading(TEXT("\r"), 11, 1, 0);
    expect_reading(TEXT("a\r"), 11, 2, 0);
    expect_reading(TEXT("a,b\r\nc"), 12, 6, 0);
    expect_reading(TEXT("a,b\r\nc\r\nd,e"), 12, 6, 0);
    expect_reading(TEXT("a,b\r\nc\r"), 12, 6, 0);
    expect_reading(TEXT("a,b\r\nc\rd"), 12, 6, 0);
    expect_reading(TEXT("a\r\n\r\n\"\",\r\n"), 12, 8, 0);
    expect_reading(TEXT("a,b\r\n\"c"), 11, 7, 0);
    expect_reading(TEXT("a,b\r\nc\""), 11, 6, 0);
}

/* Rows of 31 to 34 fields, and a byte that fits nothing on either side of the 32nd comma. */
static void test_most_fields(void)
{
    char row[] = "a,a,a,a,a,a,a,a,a,a,a,a,a,a,a,a,a,a,a,a,a,a,a,a,a,a,a,a,a,a,a,a,a,a";

    for (size_t fields = 31; fields <= 34; fields++) {
        const int fits = fields <= ORDERS_MOST_FIELDS;
        expect_reading(row, 2 * fields - 1, fits ? 0 : 13, fits ? 1 : 63, fits ? fields : 0);
    }
    row[62] = '\n';
    expect_reading(row, 67, 11, 62, 0);
    row[62] = 'a';
    row[63] = '\n';
    expect_reading(row, 67, 11, 63, 0);
    row[63] = ',';
    row[64] = '\n';
    expect_reading(row, 67, 13, 63, 0);
}

/* Fields by row and column, quotes included, and none beyond the table or in a refused text. */
static void test_parts(void)
{
    static const char text[] = "a,\"b\"\r\n\r\n,\"c\"\"\r\n\"\r\n";
    static const size_t beyond[] = {2, 3, SIZE_MAX / 2, SIZE_MAX};

    expect_reading(TEXT(text), 0, 2, 2);
    expect_part(TEXT(text), 0, 0, 0, 1);
    expect_part(TEXT(text), 0, 1, 2, 3);
    expect_part(TEXT(text), 1, 0, 9, 0);
    expect_part(TEXT(text), 1, 1, 10, 7);
    for (unsigned i = 0; i < 4; i++) {
        expect_part(TEXT(text), beyond[i], 0, 0, 0);
        expect_part(TEXT(text), 1, beyond[i], 0, 0);
        expect_part(TEXT(text), beyond[i], beyond[i], 0, 0);
        expect_part(TEXT(""), beyond[i], 0, 0, 0);
    }
    expect_part(TEXT(""), 0, 0, 0, 0);
    expect_part(TEXT("\r\n"), 0, 0, 0, 0);
    expect_part(TEXT("a,b\r\nc"), 0, 1, 0, 0);
    expect_part(TEXT("a,b\r\nc,\""), 0, 1, 0, 0);
}

static void test_contents(void)
{
    expect_content(TEXT(""), 0, 0, TEXT(""));
    expect_content(TEXT(""), 5, 0, TEXT(""));
    expect_content(TEXT("rye"), 3, 0, TEXT("rye"));
    expect_content(TEXT("rye"), 9, 0, TEXT("rye"));
    expect_content(TEXT("\"\""), 0, 0, TEXT(""));
    expect_content(TEXT("\"a, \"\"b\"\"\r\n\""), 8, 0, TEXT("a, \"b\"\r\n"));
    expect_content(TEXT("\"a, \"\"b\"\"\r\n\""), 60, 0, TEXT("a, \"b\"\r\n"));
    expect_content(TEXT("\"\"\"\""), 1, 0, TEXT("\""));
    /* 5: a target that is shorter. */
    expect_content(TEXT("rye"), 2, 5, TEXT(""));
    expect_content(TEXT("rye"), 0, 5, TEXT(""));
    expect_content(TEXT("\"\"\"\""), 0, 5, TEXT(""));
    expect_content(TEXT("\"a, \"\"b\"\"\r\n\""), 7, 5, TEXT(""));
    /* 11: parts that are no field, also where the target is shorter than they. */
    expect_content(TEXT("\""), 9, 11, TEXT(""));
    expect_content(TEXT("a,b"), 9, 11, TEXT(""));
    expect_content(TEXT("a\r\n"), 9, 11, TEXT(""));
    expect_content(TEXT("a\""), 9, 11, TEXT(""));
    expect_content(TEXT("\"a"), 9, 11, TEXT(""));
    expect_content(TEXT("\"a\"\""), 9, 11, TEXT(""));
    expect_content(TEXT("\"a\"b"), 9, 11, TEXT(""));
    expect_content(TEXT("\"a\"b"), 0, 11, TEXT(""));
    expect_content(TEXT("\"a\tb\""), 9, 11, TEXT(""));
    expect_content(TEXT("\x7F"), 0, 11, TEXT(""));
}

/* A step of a walk: its field, whether another one of the row follows; or the end, where the words are kept. */
static void expect_step(const uint8_t *text, size_t length, uint64_t cursor[2], uint64_t start, uint64_t part_length, uint64_t goes_on)
{
    uint64_t words[4] = {KEPT, KEPT, KEPT, KEPT};

    expect(orders_next(text, length, cursor, words + 1) == 1, "there is a field");
    expect_words(words, start, part_length, "the words of a field", "in a walk");
    expect(cursor[1] == goes_on, "whether another field of the row follows");
}

static void expect_end(const uint8_t *text, size_t length, uint64_t cursor[2])
{
    uint64_t words[4] = {KEPT, KEPT, KEPT, KEPT};
    const uint64_t place = cursor[0], inside = cursor[1];

    expect(orders_next(text, length, cursor, words + 1) == 0, "no field is left");
    expect_words(words, KEPT, KEPT, "the words of a part behind the last field", "in a walk");
    expect(cursor[0] == place && cursor[1] == inside, "the cursor behind the last field");
}

static void test_walks(void)
{
    static const char two[] = "\r\na,\"b\"\r\n\r\n,\"c\"\"\r\n\"\r\n";
    static const char *const none[] = {"", "\r\n", "\r\n\r\n"};
    const uint8_t *text = lent(TEXT(two));
    const size_t length = sizeof two - 1;
    uint64_t cursor[2] = {0, 0};

    expect_step(text, length, cursor, 2, 1, 1);
    expect_step(text, length, cursor, 4, 3, 0);
    expect_step(text, length, cursor, 11, 0, 1);
    expect_step(text, length, cursor, 12, 7, 0);
    expect_end(text, length, cursor);
    expect_end(text, length, cursor);

    /* A last field of no bytes, at the end of the text. */
    cursor[0] = cursor[1] = 0;
    text = lent(TEXT("a,"));
    expect_step(text, 2, cursor, 0, 1, 1);
    expect_step(text, 2, cursor, 2, 0, 0);
    expect_end(text, 2, cursor);

    for (unsigned i = 0; i < 3; i++) {
        cursor[0] = cursor[1] = 0;
        expect_end(lent(none[i], strlen(none[i])), strlen(none[i]), cursor);
    }
}

/* A longer text, by the walk and by row and column: each row has its number in quotes, its number and a field of no bytes. */
static void test_many_rows(void)
{
    char text[LONGEST], number[16];
    size_t length = 0, at = 0;
    uint64_t cursor[2] = {0, 0};

    for (size_t row = 0; row < ROWS; row++)
        length += (size_t)sprintf(text + length, "\"%zu\",%zu,\r\n%s", row, row, row % 7 == 0 ? "\r\n" : "");
    expect_reading(text, length, 0, ROWS, 3);
    const uint8_t *lent_text = lent(text, length);
    for (size_t row = 0; row < ROWS; row++) {
        const size_t digits = (size_t)sprintf(number, "%zu", row), places[3] = {at, at + digits + 3, at + 2 * digits + 4};
        const size_t lengths[3] = {digits + 2, digits, 0};
        for (size_t column = 0; column < 3; column++) {
            expect_step(lent_text, length, cursor, places[column], lengths[column], column < 2);
            expect_part(text, length, row, column, places[column], lengths[column]);
        }
        at = places[2] + (row % 7 == 0 ? 4 : 2);
    }
    expect_end(lent_text, length, cursor);
}

/* On refused texts and from any cursor a walk stays within the text, and ends. */
static void test_stray_walks(void)
{
    static const char *const texts[] = {"", "a\"b", "\"a", "\"a\"b,c", "a\rb\r\n", "\n", "a,b\r\nc", "\r", "a,b\r\nc,d"};
    static const uint64_t far[] = {100, UINT64_C(1) << 63, ONES};

    for (unsigned i = 0; i < sizeof texts / sizeof texts[0]; i++) {
        const size_t length = strlen(texts[i]);
        const uint8_t *text = lent(texts[i], length);
        for (size_t place = 0; place < length + 4; place++) {
            for (uint64_t inside = 0; inside < 2; inside++) {
                uint64_t cursor[2] = {place > length ? far[place - length - 1] : place, inside}, part[2];
                size_t steps = 0;
                while (steps < length + 2 && orders_next(text, length, cursor, part) == 1) {
                    expect(part[0] <= length && part[1] <= length - part[0], "a part of the text");
                    steps++;
                }
                expect(steps < length + 2, "the end of a walk");
            }
        }
    }
}

int main(void)
{
    read_end = area_end();
    written_end = area_end();
    test_names();
    test_accepted();
    test_refused();
    test_most_fields();
    test_parts();
    test_contents();
    test_walks();
    test_many_rows();
    test_stray_walks();
    return report("orders");
}
