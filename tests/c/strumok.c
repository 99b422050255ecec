/*
 * The calls of strumok.h from C: the published vectors, from the file that the first argument names; the words of a state where the header
 * says that they are; portions, windows and moves; portions and windows by held tables, which are those without; the check and the key
 * that it hands back; keys of zeros, their states, and a key that loads what a key of zeros loads; the published vectors of the block
 * cipher, from the file that the second argument names, and keys wrapped by it; and each refusal, with the lowest number where more than
 * one applies, and with nothing altered. What is expected follows from the vectors, the rules of the steps and the worked table of the
 * scope paper.
 */
#include "strumok.h"

#include "check.h"

#include <inttypes.h>
#include <stdio.h>
#include <string.h>

#define LIMIT UINT64_C(16777216)
#define ONES UINT64_MAX
#define T_OF_0 UINT64_C(0x14E6CC3F14E6CC3F)
#define ALPHA_INVERSE UINT64_C(0x47FCC6018A990000)

enum {
    WORDS = 20, R1 = 16, R2 = 17, SIZE = 18, POSITION = 19, LENGTH = 80, LONGEST = 64, IV = 32, TABLES = 2560, LONG = 20000,
    BLOCK = 32, LONGER = 65536 + BLOCK, GUARDS = 16
};

static void expect_number(uint64_t number, uint64_t want, const char *call)
{
    if (number != want)
        printf("strumok: %s: %" PRIu64 " and not %" PRIu64 "\n", call, number, want);
    expect(number == want, "the number of this call");
}

/* A state, so that it can be assigned; the calls are given its words. */
struct state {
    uint64_t words[WORDS];
};

static int same(const struct state *a, const struct state *b)
{
    return memcmp(a->words, b->words, sizeof a->words) == 0;
}

/* Eighteen different words in the registers; r1 is 0 and s0 and s11 are words whose products the worked table has. */
static struct state example(uint64_t size, uint64_t position)
{
    struct state s;
    for (unsigned i = 0; i < 16; i++)
        s.words[i] = UINT64_C(0x0123456789ABCDEF) * (i + 1);
    s.words[0] = ALPHA_INVERSE;
    s.words[11] = 1;
    s.words[R1] = 0;
    s.words[R2] = UINT64_C(0xFEDCBA9876543210);
    s.words[SIZE] = size;
    s.words[POSITION] = position;
    return s;
}

/* The state after one step, whose new s15 and r2 are given. */
static struct state stepped(const struct state *old, uint64_t s15, uint64_t r2)
{
    struct state s = *old;
    memmove(s.words, s.words + 1, 15 * sizeof s.words[0]);
    s.words[15] = s15;
    s.words[R1] = old->words[R2] + old->words[13];
    s.words[R2] = r2;
    s.words[POSITION] += 8;
    return s;
}

/* The keystream word: Z = F(s15, r1, r2) xor s0. */
static uint64_t keystream_word(const struct state *s)
{
    return (s->words[15] + s->words[R1]) ^ s->words[R2] ^ s->words[0];
}

static void fill(uint8_t *bytes, size_t length)
{
    for (size_t i = 0; i < length; i++)
        bytes[i] = (uint8_t)(17 * i + 3);
}

static void xor_word(uint8_t *bytes, uint64_t z)
{
    for (unsigned i = 0; i < 8; i++)
        bytes[i] ^= (uint8_t)(z >> (8 * i));
}

/* The tables that are held, and the calls by them in the form of those without. */
static uint64_t tables[TABLES];

static uint64_t apply_with(uint64_t *state, const uint8_t *source, size_t source_len, uint8_t *target, size_t target_len)
{
    return strumok_apply_with(state, tables, source, source_len, target, target_len);
}

static uint64_t window_with(uint64_t *state, uint8_t *buffer, size_t buffer_len, size_t start, size_t count)
{
    return strumok_window_with(state, tables, buffer, buffer_len, start, count);
}

/* Both forms of a portion and of a window: without held tables, and by them. */
static uint64_t (*const apply[2])(uint64_t *, const uint8_t *, size_t, uint8_t *, size_t) = {strumok_apply, apply_with};
static uint64_t (*const window[2])(uint64_t *, uint8_t *, size_t, size_t, size_t) = {strumok_window, window_with};

static void test_names(void)
{
    static const int numbers[] = {
        STRUMOK_ACCEPTED, STRUMOK_REFUSED_KEY_LENGTH, STRUMOK_REFUSED_IV_LENGTH, STRUMOK_REFUSED_SIZE_MARK,
        STRUMOK_REFUSED_POSITION_ABOVE, STRUMOK_REFUSED_TARGET_SHORTER, STRUMOK_REFUSED_WINDOW_PAST_END,
        STRUMOK_REFUSED_NEW_POSITION_ABOVE, STRUMOK_REFUSED_NEW_POSITION_BELOW, STRUMOK_REFUSED_KEY_TARGET_LENGTH,
        STRUMOK_REFUSED_NO_KEY_LEADS,
    };
    for (int i = 0; i <= 10; i++)
        expect(numbers[i] == i, "the names of the numbers stand in the order of the table");
    expect(STRUMOK_REFUSED_ZERO_KEY == 14, "the name of number 14");
    expect(STRUMOK_REFUSED_BLOCK_LENGTH == 15, "the name of number 15");
    expect(STRUMOK_BLOCK_BYTES == BLOCK, "the number of bytes of a block");
    expect(STRUMOK_STATE_WORDS == WORDS && STRUMOK_R1 == R1 && STRUMOK_R2 == R2 && STRUMOK_SIZE_MARK == SIZE
               && STRUMOK_POSITION == POSITION,
           "the names of the words");
    expect(STRUMOK_LIMIT == LIMIT, "the last position");
    expect(STRUMOK_TABLES_WORDS == TABLES, "the number of words of the tables");
}

/* One word by each call: one step, and Z over its eight bytes, least significant first. */
static void test_one_word(void)
{
    const struct state old = example(256, 8);
    const struct state next = stepped(&old, 1 ^ ALPHA_INVERSE ^ old.words[13], T_OF_0);
    struct state s = old;
    uint8_t source[8], buffer[LENGTH], want[LENGTH];

    fill(buffer, LENGTH);
    fill(want, LENGTH);
    xor_word(want + 5, keystream_word(&old));
    expect_number(strumok_window(s.words, buffer, LENGTH, 5, 8), 0, "a window of one word");
    expect(memcmp(buffer, want, LENGTH) == 0, "the bytes of the window are xor Z, the others kept");
    expect(same(&s, &next), "a window of a word: one step, word by word");

    s = old;
    fill(source, 8);
    fill(buffer, LENGTH);
    fill(want, LENGTH);
    xor_word(want, keystream_word(&old));
    expect_number(strumok_apply(s.words, source, 8, buffer, LENGTH), 0, "a portion of one word");
    expect(memcmp(buffer, want, LENGTH) == 0, "the front of the target is the source xor Z, the rest kept");
    expect(same(&s, &next), "a portion of a word: one step, word by word");

    s = old;
    expect_number(strumok_move(s.words, 8), 0, "a move of one word");
    expect(same(&s, &next), "a move of a word: one step, word by word");
    expect_number(strumok_move(s.words, -8), 0, "a move back");
    expect(same(&s, &old), "and back: the state as it was");
}

/* The loadings of rows 8 and 11: key and IV all zero, for size mark 256 or 512. */
static struct state loading_of_zeros(uint64_t size)
{
    static const unsigned ones[2][5] = {{15, 13, 10, 7, 6}, {14, 11, 9, 7, 7}};
    struct state s = {{0}};

    for (unsigned i = 0; i < 5; i++)
        s.words[ones[size / 256 - 1][i]] = ONES;
    s.words[SIZE] = size;
    return s;
}

/* Rows of the worked table that a step shows: the other words 0, a cell with a word, and the new s15. */
static void test_worked_steps(void)
{
    static const struct {
        unsigned cell;
        uint64_t word, s15;
    } rows[] = {
        {0, UINT64_C(0x0100000000000000), UINT64_C(0xD73F04125E000004)}, /* row 1 */
        {0, UINT64_C(0x0200000000000000), UINT64_C(0xB37E0824BC000008)}, /* row 2 */
        {11, 1, ALPHA_INVERSE},                                          /* row 3 */
        {11, 2, UINT64_C(0x8EE59102092F0000)},                           /* row 4 */
        {0, ALPHA_INVERSE, 1},                                           /* row 5 */
    };
    for (unsigned i = 0; i < sizeof rows / sizeof rows[0]; i++) {
        struct state old = {{0}}, s, next;
        old.words[SIZE] = 512;
        old.words[rows[i].cell] = rows[i].word;
        s = old;
        next = stepped(&old, rows[i].s15, T_OF_0);
        expect_number(strumok_move(s.words, 8), 0, "a step of rows 1 to 5");
        expect(same(&s, &next), "rows 1 to 5, and T(0) of row 6");
        expect_number(strumok_move(s.words, -8), 0, "a step back of rows 1 to 5");
        expect(same(&s, &old), "rows 1 to 5 back, and the inverse of row 6");
    }

    struct state seven = {{0}}; /* row 7 */
    uint8_t word[8] = {0};
    static const uint8_t five[8] = {5};
    seven.words[15] = ONES;
    seven.words[R1] = 1;
    seven.words[R2] = 5;
    seven.words[SIZE] = 256;
    expect_number(strumok_window(seven.words, word, 8, 0, 8), 0, "the word of row 7");
    expect(memcmp(word, five, 8) == 0, "row 7: the bytes of Z");

    const struct state eight = loading_of_zeros(256), ten = stepped(&eight, ONES, T_OF_0); /* row 8, and from it row 10 */
    struct state s = eight;
    expect_number(strumok_move(s.words, 8), 0, "the step of row 10");
    expect(ten.words[R1] == ONES && same(&s, &ten), "row 10");
}

/* One vector: its words by moving, its bytes by applying and by the window, the key by the check. */
static void test_vector(const uint8_t *key, size_t key_len, const uint8_t *iv, const uint64_t z[8])
{
    static const uint8_t zeros[64];
    struct state opened, s, end;
    uint8_t want[LENGTH], bytes[LENGTH], found[LONGEST];

    expect_number(strumok_open(key, key_len, iv, IV, opened.words), 0, "the opening of a vector");
    expect(opened.words[SIZE] == 8 * key_len && opened.words[POSITION] == 0, "size mark and position of an opened state");
    s = opened;
    fill(want, LENGTH);
    memset(want, 0, 64);
    for (unsigned i = 0; i < 8; i++) {
        expect(keystream_word(&s) == z[i], "a word of a vector, from the words of the state");
        expect_number(strumok_move(s.words, 8), 0, "a move to the next word of a vector");
        xor_word(want + 8 * i, z[i]);
    }
    end = s;
    expect(end.words[POSITION] == 64, "the position after eight words");

    s = opened;
    fill(bytes, LENGTH);
    expect_number(strumok_apply(s.words, zeros, 64, bytes, LENGTH), 0, "the bytes of a vector");
    expect(memcmp(bytes, want, LENGTH) == 0, "applied: the bytes of a vector, and the rest of the target kept");
    expect(same(&s, &end), "applied: the state moved on");

    s = opened;
    memset(bytes, 0, 64);
    expect_number(strumok_window(s.words, bytes, LENGTH, 0, 64), 0, "the bytes of a vector in place");
    expect(memcmp(bytes, want, LENGTH) == 0, "in place: the bytes of a vector, and the rest of the buffer kept");
    expect(same(&s, &end), "in place: the state moved on");

    expect_number(strumok_check(s.words, iv, IV, found, key_len), 0, "the check of a vector");
    expect(memcmp(found, key, key_len) == 0, "the key of a vector");
    expect_number(strumok_move(s.words, -64), 0, "a move back over a vector");
    expect(same(&s, &opened), "the state as it was opened");
}

static int bytes_of(const char *digits, uint8_t *bytes, size_t length)
{
    for (size_t i = 0; i < length; i++) {
        unsigned byte;
        if (sscanf(digits + 2 * i, "%2x", &byte) != 1)
            return 0;
        bytes[i] = (uint8_t)byte;
    }
    return digits[2 * length] == '\0';
}

static void test_vectors(const char *name)
{
    char line[512], key_digits[129], iv_digits[65];
    uint8_t key[LONGEST], iv[IV];
    uint64_t z[8];
    unsigned bits, sizes[2] = {0, 0};
    FILE *file = fopen(name, "r");

    while (file != NULL && fgets(line, sizeof line, file) != NULL) {
        if (line[0] == '#' || line[0] == '\n')
            continue;
        const int fields = sscanf(line,
                                  "%u key %128[0-9a-f] iv %64[0-9a-f] z %" SCNx64 "%" SCNx64 "%" SCNx64 "%" SCNx64 "%" SCNx64 "%" SCNx64
                                  "%" SCNx64 "%" SCNx64,
                                  &bits, key_digits, iv_digits, &z[0], &z[1], &z[2], &z[3], &z[4], &z[5], &z[6], &z[7]);
        const int read = fields == 11 && (bits == 256 || bits == 512) && bytes_of(key_digits, key, bits / 8)
                         && bytes_of(iv_digits, iv, IV);
        expect(read, "a line of the file of vectors");
        if (read) {
            test_vector(key, bits / 8, iv, z);
            sizes[bits / 256 - 1]++;
        }
    }
    expect(file != NULL && !ferror(file), "the file of vectors can be read");
    expect(sizes[0] == 4 && sizes[1] == 4, "it has four vectors of each size");
    if (file != NULL)
        fclose(file);
}

/* At position 3, 13 bytes equal 5, none and 8; by portions and by windows, which agree; once more deciphers. */
static void test_portions(void)
{
    struct state whole = example(256, 3), parts = whole, windows = whole, before;
    uint8_t source[13], one[LENGTH], three[LENGTH], place[LENGTH];

    fill(source, 13);
    fill(one, LENGTH);
    fill(three, LENGTH);
    fill(place, LENGTH);
    expect_number(strumok_apply(whole.words, source, 13, one, 13), 0, "13 bytes at position 3");
    expect_number(strumok_apply(parts.words, source, 5, three, 5), 0, "5 of them");
    before = parts;
    expect_number(strumok_apply(parts.words, source + 5, 0, three + 5, 0), 0, "none of them");
    expect(same(&parts, &before), "none alters nothing");
    expect_number(strumok_apply(parts.words, source + 5, 8, three + 5, 8), 0, "8 of them");
    expect(memcmp(one, three, LENGTH) == 0 && same(&whole, &parts), "portions of 5, 0 and 8 equal one of 13");
    expect(whole.words[POSITION] == 16, "the position is moved on by 13");

    expect_number(strumok_window(windows.words, place, LENGTH, 0, 5), 0, "a window of 5");
    expect_number(strumok_window(windows.words, place, LENGTH, 5, 0), 0, "a window of none");
    expect_number(strumok_window(windows.words, place, LENGTH, 5, 8), 0, "a window of 8");
    expect(memcmp(one, place, LENGTH) == 0 && same(&whole, &windows), "windows equal portions");

    expect_number(strumok_move(windows.words, -13), 0, "back over 13 bytes");
    expect_number(strumok_window(windows.words, place, LENGTH, 0, 13), 0, "the same window again");
    expect(memcmp(place, source, 13) == 0, "the same call deciphers");
}

static void test_open_number(uint64_t want, const uint8_t *key, size_t key_len, const uint8_t *iv, size_t iv_len)
{
    static const struct state blank;
    struct state s = example(256, 5);

    expect_number(strumok_open(key, key_len, iv, iv_len, s.words), want, "open");
    if (want != 0)
        expect(same(&s, &blank), "a refused opening gives the blank state");
    else
        expect(s.words[SIZE] == 8 * key_len && s.words[POSITION] == 0, "an opening gives size mark and position 0");
}

static void test_open_numbers(void)
{
    static const size_t keys[] = {0, 31, 32, 33, 63, 64, 65}, ivs[] = {0, 31, 32, 33};
    static const uint8_t zeros[LENGTH];
    uint8_t key[LENGTH], iv[LENGTH], held[LENGTH];

    fill(key, LENGTH);
    fill(iv, LENGTH);
    fill(held, LENGTH);
    for (unsigned k = 0; k < 7; k++) {
        for (unsigned v = 0; v < 4; v++) {
            const uint64_t want = keys[k] != 32 && keys[k] != 64 ? 1 : ivs[v] != 32 ? 2 : 0;
            test_open_number(want, key, keys[k], iv, ivs[v]);
            test_open_number(want, key, keys[k], zeros, ivs[v]);
            test_open_number(want == 0 ? 14 : want, zeros, keys[k], iv, ivs[v]);
            test_open_number(want == 0 ? 14 : want, zeros, keys[k], zeros, ivs[v]);
        }
    }
    expect(memcmp(key, held, LENGTH) == 0 && memcmp(iv, held, LENGTH) == 0, "key and IV are only read");
}

/* A key with one byte that is not zero is opened, wherever that byte stands; one that stands behind the key is no part of it. */
static void test_keys_beside_zeros(size_t key_len)
{
    uint8_t iv[IV];

    fill(iv, IV);
    for (size_t i = 0; i <= key_len; i++) {
        uint8_t key[LENGTH] = {0};
        key[i] = (uint8_t)(1 << i % 8);
        test_open_number(i < key_len ? 0 : 14, key, key_len, iv, IV);
    }
}

/* After a call at this position: moved on by so much where it is accepted, and else the state as it was. */
static void expect_state(const struct state *s, const struct state *old, uint64_t number, uint64_t distance)
{
    if (number != 0)
        expect(same(s, old), "a refusal gives the state back as it came");
    else
        expect(s->words[POSITION] == old->words[POSITION] + distance && s->words[SIZE] == old->words[SIZE],
               "the position is moved on, the size mark stays");
}

static void test_apply_number(uint64_t want, uint64_t size, uint64_t position, size_t source_len, size_t target_len)
{
    const struct state old = example(size, position);
    const size_t written = want == 0 ? source_len : 0;
    uint8_t source[LENGTH], target[LENGTH], held[LENGTH];

    fill(source, LENGTH);
    fill(held, LENGTH);
    for (unsigned form = 0; form < 2; form++) {
        struct state s = old;
        fill(target, LENGTH);
        expect_number(apply[form](s.words, source, source_len, target, target_len), want, form == 0 ? "apply" : "apply_with");
        expect_state(&s, &old, want, source_len);
        expect(memcmp(source, held, LENGTH) == 0, "the source is only read");
        expect(memcmp(target + written, held + written, LENGTH - written) == 0, "the target keeps the bytes that are not written");
    }
}

static void test_apply_numbers(void)
{
    test_apply_number(0, 256, 0, LENGTH, LENGTH);
    test_apply_number(0, 512, 5, 0, 0);
    test_apply_number(0, 512, 5, 11, LENGTH);
    test_apply_number(0, 256, LIMIT - 1, 1, 1);
    test_apply_number(0, 256, LIMIT, 0, 1);
    test_apply_number(3, 0, 0, 1, 1);
    test_apply_number(3, 255, LIMIT + 1, 2, 1);
    test_apply_number(3, 513, LIMIT, 2, 1);
    test_apply_number(4, 512, LIMIT + 1, 0, 0);
    test_apply_number(4, 256, ONES, 2, 1);
    test_apply_number(5, 256, 0, 2, 1);
    test_apply_number(5, 256, 0, 1, 0);
    test_apply_number(5, 512, LIMIT, 2, 1);
    test_apply_number(7, 256, LIMIT, 1, 1);
    test_apply_number(7, 512, LIMIT - 1, 2, LENGTH);
}

static void test_window_number(uint64_t want, uint64_t size, uint64_t position, size_t length, size_t start, size_t count)
{
    const struct state old = example(size, position);
    const size_t begin = want == 0 ? start : 0, end = want == 0 ? start + count : 0;
    uint8_t buffer[LENGTH], held[LENGTH];

    fill(held, LENGTH);
    for (unsigned form = 0; form < 2; form++) {
        struct state s = old;
        fill(buffer, LENGTH);
        expect_number(window[form](s.words, buffer, length, start, count), want, form == 0 ? "window" : "window_with");
        expect_state(&s, &old, want, count);
        expect(memcmp(buffer, held, begin) == 0 && memcmp(buffer + end, held + end, LENGTH - end) == 0,
               "the bytes outside the window are kept");
    }
}

static void test_window_numbers(void)
{
    test_window_number(0, 256, 0, LENGTH, 0, LENGTH);
    test_window_number(0, 256, 0, LENGTH - 8, 7, 20);
    test_window_number(0, 512, 0, LENGTH, LENGTH, 0);
    test_window_number(0, 256, 0, 0, 0, 0);
    test_window_number(0, 256, LIMIT - 1, LENGTH, 0, 1);
    test_window_number(0, 256, LIMIT, LENGTH, 0, 0);
    test_window_number(3, 0, 0, LENGTH, 0, 1);
    test_window_number(3, 255, LIMIT + 1, LENGTH, LENGTH, 1);
    test_window_number(4, 512, LIMIT + 1, LENGTH, 0, 0);
    test_window_number(4, 256, ONES, LENGTH, LENGTH, 1);
    test_window_number(6, 256, 0, LENGTH, LENGTH, 1);
    test_window_number(6, 256, 0, LENGTH - 8, 0, LENGTH - 7);
    test_window_number(6, 256, 0, LENGTH, SIZE_MAX, 1);
    test_window_number(6, 256, 0, LENGTH, 1, SIZE_MAX);
    test_window_number(6, 256, LIMIT, LENGTH, SIZE_MAX, SIZE_MAX);
    test_window_number(7, 256, LIMIT, LENGTH, 0, 1);
    test_window_number(7, 512, LIMIT - 1, LENGTH, 0, 2);
}

/* Whatever stood there before, the same 2,560 words are written, and none before or behind them. They are the tables of later tests. */
static void test_tables(void)
{
    enum { ALL = TABLES + 2 * GUARDS };
    static uint64_t words[2][ALL];

    memset(words[1], 0xFF, sizeof words[1]);
    for (unsigned i = 0; i < 2; i++) {
        strumok_tables(words[i] + GUARDS);
        for (unsigned j = 0; j < GUARDS; j++)
            expect(words[i][j] == (i == 0 ? 0 : ONES) && words[i][ALL - 1 - j] == words[i][j], "the words around the tables are kept");
    }
    expect(memcmp(words[0] + GUARDS, words[1] + GUARDS, sizeof tables) == 0, "every word of the tables is written, twice the same");
    memcpy(tables, words[0] + GUARDS, sizeof tables);
}

/* A portion and a window of one length from one state, by both forms: the same numbers, states and bytes. */
static void test_both_forms(const struct state *old, size_t length)
{
    static uint8_t source[LONG], targets[2][LONG], buffers[2][LONG];
    const uint64_t want = length <= LIMIT - old->words[POSITION] ? 0 : 7;
    const size_t start = length % 11;
    struct state applied[2] = {*old, *old}, worked[2] = {*old, *old};

    fill(source, LONG);
    for (unsigned form = 0; form < 2; form++) {
        memset(targets[form], 0xA5, LONG);
        fill(buffers[form], LONG);
        expect_number(apply[form](applied[form].words, source, length, targets[form], LONG), want, "a portion by either form");
        expect_number(window[form](worked[form].words, buffers[form], LONG, start, length), want, "a window by either form");
    }
    expect(same(&applied[0], &applied[1]) && same(&worked[0], &worked[1]), "by held tables: the same states");
    expect(memcmp(targets[0], targets[1], LONG) == 0 && memcmp(buffers[0], buffers[1], LONG) == 0, "by held tables: the same bytes");
}

static void test_held_tables(size_t key_len)
{
    static const size_t lengths[] = {511, 512, 513, 1000, 1024, 4095, 4096, 4097, 16384, LONG - 10};
    static const int64_t positions[] = {0, 1, 4, 7, 8, 13, 1000, 65535, STRUMOK_LIMIT - 1024, STRUMOK_LIMIT - 63, STRUMOK_LIMIT};
    uint64_t held[TABLES];
    uint8_t key[LONGEST], iv[IV];
    struct state opened;

    memcpy(held, tables, sizeof tables);
    fill(key, LONGEST);
    fill(iv, IV);
    expect_number(strumok_open(key, key_len, iv, IV, opened.words), 0, "the opening before held tables");
    for (unsigned i = 0; i < sizeof positions / sizeof positions[0]; i++) {
        struct state s = opened;
        expect_number(strumok_move(s.words, positions[i]), 0, "the move before held tables");
        for (size_t length = 0; length <= 260; length++)
            test_both_forms(&s, length);
        for (unsigned j = 0; j < sizeof lengths / sizeof lengths[0]; j++)
            test_both_forms(&s, lengths[j]);
    }
    expect(memcmp(held, tables, sizeof tables) == 0, "the tables are only read");
}

/* With one word of the first, the ninth or the tenth table altered the calls are accepted, and the keystream is another. */
static void test_altered_tables(void)
{
    static const unsigned altered[] = {0, 255, 8 * 256 + 90, 9 * 256 + 165};
    static const uint8_t zeros[LONG];
    static uint8_t want[LONG], target[LONG], buffer[LONG];
    const struct state old = example(512, 5);
    struct state end = old;

    expect_number(apply_with(end.words, zeros, LONG, want, LONG), 0, "a portion by the tables as written");
    for (unsigned i = 0; i < sizeof altered / sizeof altered[0]; i++) {
        struct state applied = old, worked = old;
        memset(buffer, 0, LONG);
        tables[altered[i]] ^= 1;
        expect_number(apply_with(applied.words, zeros, LONG, target, LONG), 0, "a portion by altered tables");
        expect_number(window_with(worked.words, buffer, LONG, 0, LONG), 0, "a window by altered tables");
        tables[altered[i]] ^= 1;
        expect(memcmp(want, target, LONG) != 0 && !same(&applied, &end), "a word of the tables alters the keystream");
        expect(memcmp(buffer, target, LONG) == 0 && same(&applied, &worked), "of a portion and of a window alike");
        expect_state(&worked, &old, 0, LONG);
    }
}

static void test_move_number(uint64_t want, uint64_t size, uint64_t position, int64_t distance)
{
    const struct state old = example(size, position);
    struct state s = old;

    expect_number(strumok_move(s.words, distance), want, "move");
    expect_state(&s, &old, want, (uint64_t)distance);
    if (want == 0) {
        expect_number(strumok_move(s.words, -distance), 0, "a move back");
        expect(same(&s, &old), "there and back: the state as it was");
    }
}

static void test_move_numbers(void)
{
    const int64_t limit = STRUMOK_LIMIT;

    test_move_number(0, 256, 0, limit);
    test_move_number(0, 512, LIMIT, -limit);
    test_move_number(0, 256, 5, -5);
    test_move_number(0, 256, 5, 2);
    test_move_number(0, 256, LIMIT, 0);
    test_move_number(3, 0, 0, 0);
    test_move_number(3, 257, LIMIT + 1, INT64_MAX);
    test_move_number(3, 511, 5, -6);
    test_move_number(4, 256, LIMIT + 1, -1);
    test_move_number(4, 512, ONES, 1);
    test_move_number(4, 512, LIMIT + 1, INT64_MIN);
    test_move_number(7, 256, LIMIT, 1);
    test_move_number(7, 256, 1, limit);
    test_move_number(7, 512, 0, INT64_MAX);
    test_move_number(8, 256, 5, -6);
    test_move_number(8, 256, 5, INT64_MIN);
    test_move_number(8, 512, LIMIT, -limit - 1);
    test_move_number(8, 512, LIMIT, INT64_MIN);
}

/* One check: its number; the state as it was; the target with the key where it is accepted, its other bytes kept. */
static void test_check_number(uint64_t want, struct state s, const uint8_t *iv, size_t iv_len, const uint8_t *key, size_t key_len)
{
    const struct state old = s;
    uint8_t target[LENGTH], held[LENGTH];

    fill(target, LENGTH);
    fill(held, LENGTH);
    if (want == 0)
        memcpy(held, key, key_len);
    expect_number(strumok_check(s.words, iv, iv_len, target, key_len), want, "check");
    expect(same(&s, &old), "the check only reads the state");
    expect(memcmp(target, held, LENGTH) == 0, "the key where the check is accepted, every other byte kept");
}

static void test_check_of(size_t key_len)
{
    static const int64_t positions[] = {0, 1, 7, 8, 1000, STRUMOK_LIMIT};
    uint8_t key[LONGEST], iv[IV + 1], other[IV];
    struct state opened, s;

    for (unsigned i = 0; i < LONGEST; i++)
        key[i] = (uint8_t)(0xC1 + 29 * i);
    for (unsigned i = 0; i <= IV; i++)
        iv[i] = (uint8_t)(0x5E + 43 * i);
    expect_number(strumok_open(key, key_len, iv, IV, opened.words), 0, "the opening before checks");

    for (unsigned i = 0; i < sizeof positions / sizeof positions[0]; i++) {
        s = opened;
        expect_number(strumok_move(s.words, positions[i]), 0, "the move before a check");
        test_check_number(0, s, iv, IV, key, key_len);
        for (unsigned word = 0; word < 4; word++) {
            memcpy(other, iv, IV);
            other[8 * word] ^= 1;
            test_check_number(10, s, other, IV, key, key_len);
        }
        s.words[i] ^= UINT64_C(1) << (11 * i);
        test_check_number(10, s, iv, IV, key, key_len);
    }

    s = opened;
    expect_number(strumok_move(s.words, 8), 0, "the move before checks of damaged states");
    for (unsigned i = 0; i < SIZE; i++) {
        struct state damaged = s;
        damaged.words[i] ^= UINT64_C(1) << (3 * i);
        test_check_number(10, damaged, iv, IV, key, key_len);
    }
    s.words[POSITION] = 15; /* the same word of the keystream */
    test_check_number(0, s, iv, IV, key, key_len);
    s.words[POSITION] = 16;
    test_check_number(10, s, iv, IV, key, key_len);
    s.words[POSITION] = 0;
    test_check_number(10, s, iv, IV, key, key_len);
    s.words[SIZE] = 768 - s.words[SIZE]; /* the other size */
    test_check_number(10, s, iv, IV, key, (size_t)s.words[SIZE] / 8);

    test_check_number(2, example(255, LIMIT + 1), iv, IV + 1, key, key_len + 1);
    test_check_number(2, opened, iv, IV - 1, key, key_len);
    test_check_number(2, opened, iv, 0, key, key_len);
    test_check_number(3, example(0, LIMIT + 1), iv, IV, key, 0);
    test_check_number(3, example(255, 0), iv, IV, key, 31);
    test_check_number(4, example(8 * key_len, LIMIT + 1), iv, IV, key, key_len - 1);
    test_check_number(4, example(8 * key_len, ONES), iv, IV, key, key_len);
    test_check_number(9, example(8 * key_len, 0), iv, IV, key, 96 - key_len);
    test_check_number(9, opened, iv, IV, key, key_len + 1);
    test_check_number(9, opened, iv, IV, key, key_len - 1);
    test_check_number(9, opened, iv, IV, key, 0);
    test_check_number(10, example(8 * key_len, 0), iv, IV, key, key_len);
}

/* A state of position 0 checked there and at others: at each the same number. */
static void test_check_at_positions(uint64_t want, const struct state *opened, const uint8_t *iv, const uint8_t *key, size_t key_len)
{
    static const int64_t positions[] = {0, 1, 7, 8, 1000, STRUMOK_LIMIT};

    for (unsigned i = 0; i < sizeof positions / sizeof positions[0]; i++) {
        struct state s = *opened;
        expect_number(strumok_move(s.words, positions[i]), 0, "the move before a check");
        test_check_number(want, s, iv, IV, key, key_len);
    }
}

/* From a loading to position 0: 32 steps of initialisation, where F of the old words is xored into the new s15, and an ordinary one. */
static struct state initialised(struct state s)
{
    for (unsigned i = 0; i < 32; i++) {
        const uint64_t f = keystream_word(&s) ^ s.words[0];
        expect_number(strumok_move(s.words, 8), 0, "a step of initialisation");
        s.words[15] ^= f;
    }
    expect_number(strumok_move(s.words, 8), 0, "the step after initialisation");
    s.words[POSITION] = 0;
    return s;
}

/* The state that a key of zeros leads to is refused with 10; with K0 = 1 and all else the same the key is found. */
static void test_states_of_zeros(size_t key_len)
{
    static const uint8_t iv[IV];
    uint8_t key[LONGEST] = {0};
    struct state loading = loading_of_zeros(8 * key_len), s = initialised(loading);

    test_check_at_positions(10, &s, iv, key, key_len);
    key[key_len - 1] = 1;
    loading.words[15] ^= 1;
    loading.words[7] ^= 1;
    if (key_len == 32) {
        loading.words[11] ^= 1;
        loading.words[3] ^= 1;
    }
    s = initialised(loading);
    test_check_at_positions(0, &s, iv, key, key_len);
}

/* A word as bytes, most significant first. */
static void put_word(uint8_t *bytes, uint64_t word)
{
    for (unsigned i = 0; i < 8; i++)
        bytes[i] = (uint8_t)(word >> (56 - 8 * i));
}

/*
 * Row 11: with K4 = IV3 = IV1 and all other words zero a key loads what the key of zeros loads with an IV of zeros. The check tells them
 * apart by the IV: with the one it finds the key, with the other there is none that opening accepts.
 */
static void test_row_11(uint64_t word)
{
    static const uint8_t zeros[IV];
    const struct state of_zeros = initialised(loading_of_zeros(512));
    uint8_t key[LONGEST] = {0}, iv[IV] = {0};
    struct state s;

    put_word(key + 24, word);
    put_word(iv, word);
    put_word(iv + 16, word);
    expect_number(strumok_open(key, LONGEST, iv, IV, s.words), 0, "the opening of row 11");
    expect(same(&s, &of_zeros), "row 11: the state of a key of zeros");
    test_check_at_positions(0, &s, iv, key, LONGEST);
    test_check_at_positions(10, &s, zeros, key, LONGEST);
}

/* Two keys that load alike, each with its IV, and neither all zero: the check finds the one that goes with the IV. */
static void test_alike(void)
{
    uint8_t key[2][LONGEST] = {{0}}, iv[2][IV] = {{0}};
    struct state s[2];

    put_word(key[1] + 24, 1);
    put_word(iv[1], 1);
    put_word(iv[1] + 16, 1);
    for (int i = 0; i < 2; i++) {
        key[i][0] = 1;
        expect_number(strumok_open(key[i], LONGEST, iv[i], IV, s[i].words), 0, "an opening of keys that load alike");
    }
    expect(same(&s[0], &s[1]), "keys that load alike open alike");
    for (int i = 0; i < 2; i++)
        test_check_number(0, s[0], iv[i], IV, key[i], LONGEST);
}

/* The two calls of the block cipher; each undoes the other. */
enum direction { ENCIPHER, DECIPHER };
static uint64_t (*const block_call[2])(const uint8_t *, size_t, const uint8_t *, size_t, uint8_t *, size_t) = {strumok_block_encipher,
                                                                                                               strumok_block_decipher};

/* One call with a key and a block: the target is what is wanted, and the bytes around it, the key and the source are kept. */
static void test_block(enum direction direction, const uint8_t *key, const uint8_t *source, const uint8_t *want)
{
    uint8_t lent[2][BLOCK], buffer[GUARDS + BLOCK + GUARDS], held[GUARDS + BLOCK + GUARDS];

    memcpy(lent[0], key, BLOCK);
    memcpy(lent[1], source, BLOCK);
    fill(buffer, sizeof buffer);
    fill(held, sizeof held);
    memcpy(held + GUARDS, want, BLOCK);
    expect_number(block_call[direction](lent[0], BLOCK, lent[1], BLOCK, buffer + GUARDS, BLOCK), 0, "a block");
    expect(memcmp(buffer, held, sizeof held) == 0, "the block that is wanted, and the bytes around it kept");
    expect(memcmp(lent[0], key, BLOCK) == 0 && memcmp(lent[1], source, BLOCK) == 0, "key and source of a block are only read");
}

static void test_block_vectors(const char *name)
{
    char line[512], digits[3][2 * BLOCK + 1];
    uint8_t key[BLOCK], plain[BLOCK], enciphered[BLOCK];
    unsigned vectors = 0;
    FILE *file = fopen(name, "r");

    while (file != NULL && fgets(line, sizeof line, file) != NULL) {
        if (line[0] == '#' || line[0] == '\n')
            continue;
        const int read = sscanf(line, "%64[0-9a-f] %64[0-9a-f] %64[0-9a-f]", digits[0], digits[1], digits[2]) == 3
                         && bytes_of(digits[0], key, BLOCK) && bytes_of(digits[1], plain, BLOCK)
                         && bytes_of(digits[2], enciphered, BLOCK);
        expect(read, "a line of the file of blocks");
        if (read) {
            test_block(ENCIPHER, key, plain, enciphered);
            test_block(DECIPHER, key, enciphered, plain);
            vectors++;
        }
    }
    expect(file != NULL && !ferror(file), "the file of blocks can be read");
    expect(vectors == 5, "it has five vectors");
    if (file != NULL)
        fclose(file);
}

/* Blocks and keys of all bytes 0, of all bytes FF, and of many others: each call undoes the other. */
static void test_blocks_there_and_back(void)
{
    uint8_t key[BLOCK], source[BLOCK], target[BLOCK];

    for (unsigned i = 0; i < 512; i++) {
        for (unsigned j = 0; j < BLOCK; j++) {
            key[j] = (uint8_t)(i % 4 == 0 ? 0 : i % 4 == 1 ? 0xFF : 7 * i + 11 * j);
            source[j] = (uint8_t)(i / 4 % 4 == 0 ? 0 : i / 4 % 4 == 1 ? 0xFF : 13 * i + 5 * j * j);
        }
        for (unsigned direction = 0; direction < 2; direction++) {
            expect_number(block_call[direction](key, BLOCK, source, BLOCK, target, BLOCK), 0, "a block");
            expect(memcmp(target, source, BLOCK) != 0, "a block is altered");
            test_block(direction == ENCIPHER ? DECIPHER : ENCIPHER, key, target, source);
        }
    }
}

/* A call of the block cipher with these lengths: 15 where one is not 32, and then no byte is written. */
static void test_block_lengths_of(enum direction direction, size_t key_len, size_t source_len, size_t target_len)
{
    static uint8_t key[LONGER], source[LONGER], target[GUARDS + LONGER + GUARDS], held[GUARDS + LONGER + GUARDS];
    const uint64_t want = key_len == BLOCK && source_len == BLOCK && target_len == BLOCK ? 0 : 15;

    fill(key, sizeof key);
    fill(source, sizeof source);
    fill(target, sizeof target);
    fill(held, sizeof held);
    expect_number(block_call[direction](key, key_len, source, source_len, target + GUARDS, target_len), want, "a block by lengths");
    expect(memcmp(key, held, sizeof key) == 0 && memcmp(source, held, sizeof source) == 0, "key and source are only read");
    if (want == 0)
        memcpy(held + GUARDS, target + GUARDS, BLOCK);
    expect(memcmp(target, held, sizeof held) == 0, "a refused block writes nothing, and an accepted one its 32 bytes alone");
}

/* Key, source and target of this length, one, two and all of them; the others have 32 bytes. */
static void test_block_length(enum direction direction, size_t length)
{
    test_block_lengths_of(direction, length, BLOCK, BLOCK);
    test_block_lengths_of(direction, BLOCK, length, BLOCK);
    test_block_lengths_of(direction, BLOCK, BLOCK, length);
    test_block_lengths_of(direction, length, length, BLOCK);
    test_block_lengths_of(direction, length, BLOCK, length);
    test_block_lengths_of(direction, BLOCK, length, length);
    test_block_lengths_of(direction, length, length, length);
}

static void test_block_lengths(void)
{
    for (unsigned direction = 0; direction < 2; direction++) {
        for (size_t length = 0; length <= LONGEST; length++)
            test_block_length(direction, length);
        test_block_length(direction, 256 + BLOCK);
        test_block_length(direction, LONGER);
    }
}

/* A key of 64 bytes wrapped in two calls and unwrapped in two: equal halves show, and a changed half is another key. */
static void test_wrapped_keys(void)
{
    uint8_t master_key[BLOCK], key[2 * BLOCK], wrapped[2 * BLOCK], unwrapped[2 * BLOCK];

    fill(master_key, BLOCK);
    for (unsigned equal = 0; equal < 2; equal++) {
        fill(key, sizeof key);
        if (equal)
            memcpy(key + BLOCK, key, BLOCK);
        for (size_t half = 0; half < sizeof key; half += BLOCK)
            expect_number(strumok_block_encipher(master_key, BLOCK, key + half, BLOCK, wrapped + half, BLOCK), 0, "a half wrapped");
        for (size_t half = 0; half < sizeof key; half += BLOCK)
            expect_number(strumok_block_decipher(master_key, BLOCK, wrapped + half, BLOCK, unwrapped + half, BLOCK), 0, "a half unwrapped");
        expect(memcmp(unwrapped, key, sizeof key) == 0, "a key is unwrapped as it was");
        expect((memcmp(wrapped, wrapped + BLOCK, BLOCK) == 0) == (equal == 1), "equal halves show, and others do not");

        wrapped[40] ^= 1;
        expect_number(strumok_block_decipher(master_key, BLOCK, wrapped + BLOCK, BLOCK, unwrapped + BLOCK, BLOCK), 0, "a changed half");
        expect(memcmp(unwrapped + BLOCK, key + BLOCK, BLOCK) != 0, "a changed half is unwrapped to another key");
    }
}

int main(int argc, char **argv)
{
    if (argc != 3) {
        fputs("usage: strumok VECTORS BLOCK_VECTORS\n", stderr);
        return 2;
    }
    test_names();
    test_one_word();
    test_worked_steps();
    test_vectors(argv[1]);
    test_portions();
    test_tables();
    test_held_tables(32);
    test_held_tables(64);
    test_altered_tables();
    test_open_numbers();
    test_keys_beside_zeros(32);
    test_keys_beside_zeros(64);
    test_apply_numbers();
    test_window_numbers();
    test_move_numbers();
    test_check_of(32);
    test_check_of(64);
    test_states_of_zeros(32);
    test_states_of_zeros(64);
    test_row_11(1);
    test_row_11(UINT64_C(0x8000000000000000));
    test_row_11(UINT64_C(0x0123456789ABCDEF));
    test_alike();
    test_block_vectors(argv[2]);
    test_blocks_there_and_back();
    test_block_lengths();
    test_wrapped_keys();
    return report("strumok");
}
