/*
 * The benchmark of the reader of order files: the proved reader and the one in C, on the same texts, which are made here. tools/bench calls
 * it, and makes one table of what it prints.
 *
 *   orders check               tries the reader in C beside the proved one; status 1 where they differ
 *   orders time                runs each row of the table by both, in turn, for some seconds, and prints the best times
 *   orders count ROW READER    runs one row by one of them, `proved` or `c`; the function to be counted is `measured`
 *
 * Only the reading has a row of C. The walk over all fields and their contents are by the proved library alone.
 */
#define _POSIX_C_SOURCE 199309L

#include "bench.h"
#include "csv_in_c.h"
#include "orders.h"

#include <string.h>

enum { LENGTH = 10000000, LONGEST_ROW = 128, SHORT = 200, ROW_SECONDS = 1 };

typedef uint64_t reader(const uint8_t *, size_t, uint64_t *);

/* ---- The texts ---- */

static uint8_t text[LENGTH + LENGTH / 10 + LONGEST_ROW];
static size_t text_len;

static void append(const char *words)
{
    const size_t length = strlen(words);

    memcpy(text + text_len, words, length);
    text_len += length;
}

static void append_number(size_t number)
{
    if (number >= 10)
        append_number(number / 10);
    text[text_len++] = (uint8_t)('0' + number % 10);
}

/* A row like: Shop 12,white loaf 500g,120 */
static void append_plain(void)
{
    append("Shop ");
    append_number(1 + random_below(99));
    append(",white loaf ");
    append_number(250 * (1 + random_below(4)));
    append("g,");
    append_number(1 + random_below(400));
    append("\r\n");
}

/* A row like: "Shop 12, Podil","roll ""poppy"" 60g","120" */
static void append_quoted(void)
{
    append("\"Shop ");
    append_number(1 + random_below(99));
    append(", Podil\",\"roll \"\"poppy\"\" ");
    append_number(10 * (3 + random_below(10)));
    append("g\",\"");
    append_number(1 + random_below(400));
    append("\"\r\n");
}

/* Ten rows of one long field, without quotes, and in quotes, with one word in twenty in doubled quotes. */
static void append_long_plain(void)
{
    for (size_t end = text_len + LENGTH / 10 - LONGEST_ROW; text_len < end;)
        append("white loaf 500g; sliced. ");
    append("\r\n");
}

static void append_long_quoted(void)
{
    append("\"");
    for (size_t end = text_len + LENGTH / 10 - LONGEST_ROW; text_len < end;)
        append("roll \"\"poppy\"\" 60g, a dozen for the shop at Podil, baked early. white loaf 500g, sliced, for the shop at the station. ");
    append("\"\r\n");
}

/* Some 10 MB of such rows. */
static void make_text(void (*append_row)(void))
{
    text_len = 0;
    while (text_len < LENGTH)
        append_row();
}

/* ---- The check: beside the proved reader ---- */

static unsigned compared, numbers_found[14];

/* Shows the text and stops where the answers differ. */
static void compare(const uint8_t *bytes, size_t length)
{
    uint64_t proved[2], in_c[2];
    const uint64_t number = orders_read(bytes, length, proved), number_in_c = csv_in_c_read(bytes, length, in_c);

    compared++;
    if (number != number_in_c || proved[0] != in_c[0] || proved[1] != in_c[1]) {
        fprintf(stderr, "bench: the reader in C answers %u, %zu, %zu, the proved one %u, %zu, %zu:", (unsigned)number_in_c, (size_t)in_c[0],
                (size_t)in_c[1], (unsigned)number, (size_t)proved[0], (size_t)proved[1]);
        for (size_t i = 0; i < length && i < SHORT; i++)
            fprintf(stderr, " %02X", bytes[i]);
        fputc('\n', stderr);
        exit(1);
    }
    numbers_found[number]++;
}

/* All texts of up to six bytes of these letters. */
static void compare_short(void)
{
    static const uint8_t letters[] = {'a', ',', '"', '\r', '\n', 0xE9};

    for (unsigned length = 0, count = 1; length <= 6; length++, count *= 6) {
        for (unsigned which = 0; which < count; which++) {
            uint8_t bytes[6];
            for (unsigned i = 0, rest = which; i < length; i++, rest /= 6)
                bytes[i] = letters[rest % 6];
            compare(bytes, length);
        }
    }
}

/* Every byte behind and before some beginnings and ends. */
static void compare_bytes(void)
{
    static const char *const befores[] = {"", "a", "\"", "\"a\"", "a\r", "a,", "a,b\r\n"}, *const afters[] = {"", "a", "\"", "\r\n"};

    for (unsigned i = 0; i < 256 * 7 * 4; i++) {
        const char *before = befores[i / 4 % 7], *after = afters[i % 4];
        const size_t before_len = strlen(before), after_len = strlen(after);
        uint8_t bytes[16];
        memcpy(bytes, before, before_len);
        bytes[before_len] = (uint8_t)(i / 28);
        memcpy(bytes + before_len + 1, after, after_len);
        compare(bytes, before_len + 1 + after_len);
    }
}

/* Rows of up to 40 fields, and with a byte of them changed. */
static void compare_fields(void)
{
    for (size_t fields = 1; fields <= 40; fields++) {
        uint8_t bytes[SHORT];
        size_t length = 0;
        for (size_t i = 0; i < fields; i++) {
            memcpy(bytes + length, "\"a\",", 4);
            length += 4;
        }
        compare(bytes, length - 1);
        for (size_t i = 0; i < length; i++) {
            const uint8_t byte = bytes[i];
            bytes[i] = '\n';
            compare(bytes, length - 1);
            bytes[i] = byte;
        }
    }
}

/* Pieces of the two texts, with a byte changed here and there; and each text whole. */
static void compare_files(void)
{
    static const uint8_t letters[] = {'a', ',', '"', '\r', '\n', 0, 0x7F, 0xE9};

    for (unsigned which = 0; which < 2; which++) {
        make_text(which == 0 ? append_plain : append_quoted);
        compare(text, text_len);
        for (unsigned i = 0; i < 20000; i++) {
            uint8_t bytes[SHORT];
            const size_t length = random_below(SHORT + 1);
            memcpy(bytes, text + (i % 2 == 0 ? 0 : random_below(1000)), length);
            for (size_t changes = random_below(3); changes > 0 && length > 0; changes--)
                bytes[random_below(length)] = letters[random_below(8)];
            compare(bytes, length);
        }
    }
}

static int check(void)
{
    compare_short();
    compare_bytes();
    compare_fields();
    compare_files();
    if (numbers_found[0] == 0 || numbers_found[11] == 0 || numbers_found[12] == 0 || numbers_found[13] == 0)
        stop("a number was never answered");
    printf("bench: the reader in C is the proved one's equal in %u comparisons\n", compared);
    return 0;
}

/* ---- The rows ---- */

/* The parts of the text, and their bytes together. */
static struct part {
    size_t start, length;
} *parts;
static size_t part_count, part_bytes;

enum work { READING, WALK, CONTENTS };

static const struct row {
    const char *name, *label;
    void (*append_row)(void);
    enum work work;
} rows[] = {
    {"read-plain", "reading plain orders", append_plain, READING},
    {"read-quoted", "reading quoted orders", append_quoted, READING},
    {"walk-plain", "walk over all fields of plain orders", append_plain, WALK},
    {"walk-quoted", "walk over all fields of quoted orders", append_quoted, WALK},
    {"content-plain", "contents of all fields of plain orders (a byte of the fields)", append_plain, CONTENTS},
    {"content-quoted", "contents of all fields of quoted orders (a byte of the fields)", append_quoted, CONTENTS},
    {"content-long-plain", "content of a field of 1 MB", append_long_plain, CONTENTS},
    {"content-long-quoted", "content of a field of 1 MB in quotes, one word in twenty in doubled quotes", append_long_quoted, CONTENTS},
};

enum { ROWS = sizeof rows / sizeof rows[0] };

/* The work of one row. A sum that depends on all of it, by which runs can be compared. */
__attribute__((noinline, noclone)) uint64_t measured(reader *read, enum work work);

uint64_t measured(reader *read, enum work work)
{
    static uint8_t target[LENGTH / 10];
    uint64_t words[2], cursor[2] = {0, 0}, sum = 0, written;

    switch (work) {
    case READING:
        sum = read(text, text_len, words) + words[0] + words[1];
        break;
    case WALK:
        while (orders_next(text, text_len, cursor, words) == 1)
            sum += words[1];
        break;
    case CONTENTS:
        for (const struct part *part = parts; part < parts + part_count; part++) {
            sum += orders_content(text + part->start, part->length, target, sizeof target, &written);
            sum += written;
        }
    }
    return sum;
}

/* Finds the parts of the text. */
static void find_parts(void)
{
    uint64_t answer[2], cursor[2] = {0, 0}, words[2];

    if (orders_read(text, text_len, answer) != 0)
        stop("a text is refused");
    free(parts);
    parts = malloc((size_t)(answer[0] * answer[1]) * sizeof *parts);
    if (parts == NULL)
        stop("there is no memory for the parts");
    part_count = part_bytes = 0;
    while (orders_next(text, text_len, cursor, words) == 1) {
        parts[part_count++] = (struct part){(size_t)words[0], (size_t)words[1]};
        part_bytes += (size_t)words[1];
    }
    if (part_count != answer[0] * answer[1])
        stop("a walk has not as many fields as the table");
}

/* The text and the parts of a row; the bytes by which its work is to be divided. */
static size_t prepare(const struct row *row)
{
    make_text(row->append_row);
    find_parts();
    return row->work == CONTENTS ? part_bytes : text_len;
}

/* The seconds of a run, whose sum has to be the one that is known, where one is. */
static double run(reader *read, enum work work, uint64_t *sum)
{
    const double begin = processor_time();
    const uint64_t found = measured(read, work);
    const double end = processor_time();

    if (*sum != 0 && *sum != found)
        stop("two runs of a row differ");
    *sum = found;
    return end - begin;
}

/* A line for each row, with tabs between: name, label, the best seconds a byte of the proved library and of C; - where C has no such row. */
static int print_times(void)
{
    for (const struct row *row = rows; row < rows + ROWS; row++) {
        const size_t bytes = prepare(row);
        const unsigned readers = row->work == READING ? 2 : 1;
        double best[2] = {1e9, 1e9}, spent = 0;
        uint64_t sum = 0;
        while (spent < ROW_SECONDS) {
            for (unsigned which = 0; which < readers; which++) {
                const double seconds = run(which == 0 ? orders_read : csv_in_c_read, row->work, &sum);
                if (seconds < best[which])
                    best[which] = seconds;
                spent += seconds;
            }
        }
        printf("%s\t%s\t%.9g\t", row->name, row->label, best[0] / (double)bytes);
        if (readers == 2)
            printf("%.9g\n", best[1] / (double)bytes);
        else
            printf("-\n");
        fflush(stdout);
    }
    return 0;
}

/* Runs a row to be counted, and prints the bytes by which its instructions are to be divided. */
static int count(const char *row_name, const char *reader_name)
{
    const int c = strcmp(reader_name, "c") == 0;

    if (!c && strcmp(reader_name, "proved") != 0)
        stop("there is no reader of that name");
    for (const struct row *row = rows; row < rows + ROWS; row++) {
        if (strcmp(row->name, row_name) == 0 && (!c || row->work == READING)) {
            uint64_t sum = 0;
            const size_t bytes = prepare(row);
            run(c ? csv_in_c_read : orders_read, row->work, &sum);
            printf("%zu\n", bytes);
            return 0;
        }
    }
    stop("there is no row of that name");
    return 1;
}

int main(int argc, char **argv)
{
    const char *mode = argc > 1 ? argv[1] : "";

    if (strcmp(mode, "check") == 0 && argc == 2)
        return check();
    if (strcmp(mode, "time") == 0 && argc == 2)
        return print_times();
    if (strcmp(mode, "count") == 0 && argc == 4)
        return count(argv[2], argv[3]);
    fputs("usage: orders check | orders time | orders count ROW proved|c\n", stderr);
    return 2;
}
