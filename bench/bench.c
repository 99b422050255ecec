/*
 * The benchmark of the ciphers: the proved library and the ciphers in C, on the same input. tools/bench calls it, and makes one table of
 * what it prints.
 *
 *   bench check PI VECTORS BLOCKS  tries the ciphers in C by the published vectors and beside the proved library; status 1 if they differ
 *   bench time PI                  runs each row of the table by both, in turn, for some seconds, and prints the best times
 *   bench count PI ROW CIPHER      runs one row by one of them, `proved` or `c`; the function to be counted is `measured`
 *
 * The cipher in C of a row is the one that the row names: of the block cipher there are two.
 *
 * PI, VECTORS and BLOCKS are the files of the folder data; the last has the published vectors of the block cipher.
 */
#define _POSIX_C_SOURCE 199309L

#include "bench.h"
#include "kalyna_in_c.h"
#include "strumok.h"
#include "strumok_in_c.h"

#include <inttypes.h>
#include <stdio.h>
#include <stdlib.h>
#include <string.h>

enum { WORDS = STRUMOK_STATE_WORDS, IV = 32, LONGEST = 64, LENGTH = 80, BLOCK = 32, MIB = 1048576, ROW_SECONDS = 3 };

struct cipher {
    uint64_t (*open)(const uint8_t *, size_t, const uint8_t *, size_t, uint64_t *);
    uint64_t (*apply)(uint64_t *, const uint8_t *, size_t, uint8_t *, size_t);
    uint64_t (*window)(uint64_t *, uint8_t *, size_t, size_t, size_t);
    uint64_t (*move)(uint64_t *, int64_t);
    uint64_t (*check)(const uint64_t *, const uint8_t *, size_t, uint8_t *, size_t);
    uint64_t (*encipher)(const uint8_t *, size_t, const uint8_t *, size_t, uint8_t *, size_t);
    uint64_t (*decipher)(const uint8_t *, size_t, const uint8_t *, size_t, uint8_t *, size_t);
};

/* The tables that the proved library is lent; they are filled once, at the start, as those of the cipher in C are. */
static uint64_t tables[STRUMOK_TABLES_WORDS];

static uint64_t apply_with(uint64_t *state, const uint8_t *from, size_t from_len, uint8_t *to, size_t to_len)
{
    return strumok_apply_with(state, tables, from, from_len, to, to_len);
}

static uint64_t window_with(uint64_t *state, uint8_t *buffer, size_t buffer_len, size_t start, size_t count)
{
    return strumok_window_with(state, tables, buffer, buffer_len, start, count);
}

/* In C a window is a portion to where it came from. None of this program ends past its buffer. */
static uint64_t window_in_c(uint64_t *state, uint8_t *buffer, size_t buffer_len, size_t start, size_t count)
{
    (void)buffer_len;
    return strumok_in_c_apply(state, buffer + start, count, buffer + start, count);
}

/*
 * The proved library by held tables, and by tables that each call brings in anew, as every call of the block cipher does; in C, with the
 * block cipher by the tables of the proved library; and in C with the one that is tuned by hand.
 */
static const struct cipher held = {strumok_open,  apply_with,             window_with,           strumok_move,
                                   strumok_check, strumok_block_encipher, strumok_block_decipher};
static const struct cipher anew = {strumok_open,  strumok_apply,          strumok_window,        strumok_move,
                                   strumok_check, strumok_block_encipher, strumok_block_decipher};
static const struct cipher in_c = {strumok_in_c_open,  strumok_in_c_apply,   window_in_c,         strumok_in_c_move,
                                   strumok_in_c_check, kalyna_in_c_encipher, kalyna_in_c_decipher};
static const struct cipher tuned = {strumok_in_c_open,  strumok_in_c_apply,         window_in_c,               strumok_in_c_move,
                                    strumok_in_c_check, kalyna_tuned_in_c_encipher, kalyna_tuned_in_c_decipher};

static uint8_t key[LENGTH], iv[LENGTH], source[MIB], target[MIB], other_target[MIB];

static void random_bytes(uint8_t *bytes, size_t length)
{
    for (size_t i = 0; i < length; i++)
        bytes[i] = (uint8_t)(random_word() >> 32);
}

/* ---- The check: the published vectors ---- */

static unsigned compared;

static void expect(int ok, const char *what)
{
    compared++;
    if (!ok) {
        fprintf(stderr, "bench: the ciphers in C: not so: %s\n", what);
        exit(1);
    }
}

static void check_vector(size_t key_len, const uint64_t z[8])
{
    uint64_t state[WORDS];
    uint8_t zeros[64] = {0}, bytes[64], found[LONGEST];

    expect(in_c.open(key, key_len, iv, IV, state) == 0, "a vector is opened");
    expect(in_c.apply(state, zeros, 64, bytes, 64) == 0, "a vector is applied");
    for (unsigned i = 0; i < 64; i++)
        expect(bytes[i] == (uint8_t)(z[i / 8] >> 8 * (i % 8)), "a byte of a vector");
    expect(in_c.check(state, iv, IV, found, key_len) == 0 && memcmp(found, key, key_len) == 0, "the key of a vector");
}

static int bytes_of(const char *digits, uint8_t *bytes, size_t length)
{
    for (size_t i = 0; i < length; i++) {
        unsigned byte;
        if (sscanf(digits + 2 * i, "%2x", &byte) != 1)
            return 0;
        bytes[i] = (uint8_t)byte;
    }
    return digits[2 * length] == '\0';
}

static void check_vectors(const char *name)
{
    char line[512], key_digits[129], iv_digits[65];
    uint64_t z[8];
    unsigned bits, sizes[2] = {0, 0};
    FILE *file = fopen(name, "r");

    if (file == NULL)
        stop("the file of vectors cannot be read");
    while (fgets(line, sizeof line, file) != NULL) {
        if (line[0] == '#' || line[0] == '\n')
            continue;
        const int fields = sscanf(line,
                                  "%u key %128[0-9a-f] iv %64[0-9a-f] z %" SCNx64 "%" SCNx64 "%" SCNx64 "%" SCNx64 "%" SCNx64 "%" SCNx64
                                  "%" SCNx64 "%" SCNx64,
                                  &bits, key_digits, iv_digits, &z[0], &z[1], &z[2], &z[3], &z[4], &z[5], &z[6], &z[7]);
        expect(fields == 11 && (bits == 256 || bits == 512) && bytes_of(key_digits, key, bits / 8) && bytes_of(iv_digits, iv, IV),
               "a line of the file of vectors");
        check_vector(bits / 8, z);
        sizes[bits / 256 - 1]++;
    }
    fclose(file);
    expect(sizes[0] == 4 && sizes[1] == 4, "there are four vectors of each size");
}

static void check_block_vectors(const struct cipher *c, const char *name)
{
    char line[512], digits[3][2 * BLOCK + 1];
    uint8_t vector[3][BLOCK], written[BLOCK];
    unsigned vectors = 0;
    FILE *file = fopen(name, "r");

    if (file == NULL)
        stop("the file of vectors of the block cipher cannot be read");
    while (fgets(line, sizeof line, file) != NULL) {
        if (line[0] == '#' || line[0] == '\n')
            continue;
        expect(sscanf(line, "%64[0-9a-f] %64[0-9a-f] %64[0-9a-f]", digits[0], digits[1], digits[2]) == 3, "a line of blocks");
        for (unsigned i = 0; i < 3; i++)
            expect(bytes_of(digits[i], vector[i], BLOCK), "a key or a block of a vector");
        expect(c->encipher(vector[0], BLOCK, vector[1], BLOCK, written, BLOCK) == 0 && memcmp(written, vector[2], BLOCK) == 0,
               "a vector is enciphered");
        expect(c->decipher(vector[0], BLOCK, vector[2], BLOCK, written, BLOCK) == 0 && memcmp(written, vector[1], BLOCK) == 0,
               "a vector is deciphered");
        vectors++;
    }
    fclose(file);
    expect(vectors == 5, "there are five vectors of the block cipher");
}

/* ---- The check: beside the proved library, call by call ---- */

/* The states of both, which have to be equal before and after each call. */
static uint64_t states[2][WORDS];

static void compare_states(void)
{
    expect(memcmp(states[0], states[1], sizeof states[0]) == 0, "the states are equal");
}

static void set_states(const uint64_t *state)
{
    memcpy(states[0], state, sizeof states[0]);
    memcpy(states[1], state, sizeof states[1]);
}

static uint64_t compare_open(size_t key_len, size_t iv_len)
{
    const uint64_t number = strumok_open(key, key_len, iv, iv_len, states[0]);

    expect(in_c.open(key, key_len, iv, iv_len, states[1]) == number, "the numbers of an opening");
    compare_states();
    return number;
}

/* Both targets, as far as a portion of this length from one of the first places on may have written, and behind it. */
static void compare_targets(size_t length)
{
    expect(memcmp(target, other_target, length < MIB - 256 ? length + 256 : MIB) == 0, "the targets are equal");
}

/* A portion from some place in the source to some place in the target, by the proved library with held tables or without. */
static void compare_apply(const struct cipher *proved, size_t length, size_t target_len)
{
    const size_t from = random_below(64), to = random_below(64);
    const uint64_t number = proved->apply(states[0], source + from, length, target + to, target_len);

    expect(in_c.apply(states[1], source + from, length, other_target + to, target_len) == number, "the numbers of a portion");
    compare_targets(length);
    compare_states();
}

/* The same in place. */
static void compare_window(const struct cipher *proved, size_t length)
{
    const size_t start = random_below(64);
    const uint64_t number = proved->window(states[0], target, MIB, start, length);

    expect(in_c.window(states[1], other_target, MIB, start, length) == number, "the numbers of a window");
    compare_targets(length);
    compare_states();
}

static void compare_move(int64_t distance)
{
    const uint64_t number = strumok_move(states[0], distance);

    expect(in_c.move(states[1], distance) == number, "the numbers of a move");
    compare_states();
}

static uint64_t compare_check(size_t iv_len, size_t key_len)
{
    uint8_t found[2][LENGTH];

    memset(found, 0xA5, sizeof found);
    const uint64_t number = strumok_check(states[0], iv, iv_len, found[0], key_len);
    expect(in_c.check(states[1], iv, iv_len, found[1], key_len) == number, "the numbers of a check");
    expect(memcmp(found[0], found[1], LENGTH) == 0, "the keys of a check are equal");
    expect(number != 0 || memcmp(found[0], key, key_len) == 0, "the key of a check is the one that was opened");
    compare_states();
    return number;
}

/* A portion, a window, a move or a check of some length, at the position where the last call left the states. */
static void compare_some_call(size_t key_len)
{
    static const size_t bounds[] = {9, 40, 300, 3000};
    const struct cipher *proved = random_below(2) == 0 ? &held : &anew;
    const size_t length = random_below(bounds[random_below(4)]);

    switch (random_below(7)) {
    case 0:
        compare_move((int64_t)length);
        break;
    case 1:
        compare_move(-(int64_t)length);
        break;
    case 2:
        expect(compare_check(IV, key_len) == 0, "a state that was opened is accepted");
        break;
    case 3:
    case 4:
        compare_window(proved, length);
        break;
    default:
        compare_apply(proved, length, length + random_below(3));
    }
}

static void compare_portions(const struct cipher *proved)
{
    for (size_t length = 0; length < 400; length++)
        compare_apply(proved, length, length);
    for (size_t length = 0; length < 400; length++)
        compare_window(proved, length);
    compare_apply(proved, MIB - 64, MIB - 64);
    compare_window(proved, MIB - 64);
}

static void compare_lengths(size_t key_len)
{
    compare_open(key_len, IV);
    compare_portions(&held);
    compare_portions(&anew);
    compare_move(STRUMOK_LIMIT - (int64_t)states[0][STRUMOK_POSITION]);
    expect(compare_check(IV, key_len) == 0, "the last position is accepted");
    for (int64_t distance = 0; distance < 400; distance++)
        compare_move(-distance);
    compare_move(-(int64_t)states[0][STRUMOK_POSITION]);
    for (int64_t distance = 0; distance < 400; distance++)
        compare_move(distance);
}

/* With one bit of the IV, of a cell or of a register turned over, or with another position, a state is refused. */
static void compare_damaged(size_t key_len)
{
    uint64_t held[WORDS];

    compare_open(key_len, IV);
    compare_move(1000);
    memcpy(held, states[0], sizeof held);
    for (unsigned i = 0; i < IV; i++) {
        iv[i] ^= 1;
        expect(compare_check(IV, key_len) == STRUMOK_REFUSED_NO_KEY_LEADS, "another IV is refused");
        iv[i] ^= 1;
    }
    for (unsigned i = 0; i < 19; i++) {
        uint64_t damaged[WORDS];
        memcpy(damaged, held, sizeof damaged);
        damaged[i == 18 ? STRUMOK_POSITION : i] ^= UINT64_C(1) << (3 * i % 20);
        set_states(damaged);
        expect(compare_check(IV, key_len) == STRUMOK_REFUSED_NO_KEY_LEADS, "a damaged state is refused");
    }
}

/* Keys of zeros are refused; with one byte that is not zero a key is opened. */
static void compare_zero_keys(size_t key_len)
{
    memset(key, 0, LENGTH);
    expect(compare_open(key_len, IV) == STRUMOK_REFUSED_ZERO_KEY, "a key of zeros is refused");
    expect(compare_open(key_len, IV - 1) == STRUMOK_REFUSED_IV_LENGTH, "a wrong IV is refused before a key of zeros");
    for (size_t i = 0; i < key_len; i++) {
        key[i] = 0x10;
        expect(compare_open(key_len, IV) == 0, "a key with one byte that is not zero is opened");
        expect(compare_check(IV, key_len) == 0, "the state of such a key is accepted");
        key[i] = 0;
    }
}

/* A key that loads, with its IV, what a key of zeros loads with an IV of zeros: with that IV its state is refused. */
static void compare_alike_to_zeros(void)
{
    memset(key, 0, LENGTH);
    memset(iv, 0, LENGTH);
    key[24] = iv[0] = iv[16] = 0x80; /* K4, IV3, IV1 */
    expect(compare_open(LONGEST, IV) == 0, "a key that loads what a key of zeros loads is opened");
    compare_move(1000);
    expect(compare_check(IV, LONGEST) == 0, "with its IV its state is accepted");
    memset(iv, 0, LENGTH);
    expect(compare_check(IV, LONGEST) == STRUMOK_REFUSED_NO_KEY_LEADS, "the state of a key of zeros is refused");
}

/* A portion and a window from this state, by both forms of the proved library. */
static void compare_forms(const uint64_t *state, size_t length, size_t target_len)
{
    for (unsigned form = 0; form < 2; form++) {
        const struct cipher *proved = form == 0 ? &held : &anew;
        set_states(state);
        compare_apply(proved, length, target_len);
        set_states(state);
        compare_window(proved, length);
    }
}

/* Each call on states and lengths of which most are refused. */
static void compare_refusals(void)
{
    static const uint64_t sizes[] = {0, 255, 256, 512, 513};
    static const uint64_t positions[] = {0, 5, STRUMOK_LIMIT - 1, STRUMOK_LIMIT, STRUMOK_LIMIT + 1, UINT64_MAX};
    static const size_t lengths[] = {0, 1, 2, 31, 32, 33, 63, 64, 65};
    static const int64_t distances[] = {0, 1, 2, -1, -5, -6, STRUMOK_LIMIT, -STRUMOK_LIMIT, INT64_MAX, INT64_MIN};
    uint64_t state[WORDS];

    for (unsigned i = 0; i < 9 * 9; i++) {
        set_states(states[0]);
        compare_open(lengths[i / 9], lengths[i % 9]);
    }
    for (unsigned i = 0; i < WORDS; i++)
        state[i] = random_word();
    for (unsigned i = 0; i < 5 * 6; i++) {
        state[STRUMOK_SIZE_MARK] = sizes[i / 6];
        state[STRUMOK_POSITION] = positions[i % 6];
        for (unsigned j = 0; j < 9; j++) {
            compare_forms(state, lengths[j], lengths[random_below(9)]);
            set_states(state);
            compare_check(random_below(2) == 0 ? IV : lengths[j], lengths[j]);
        }
        for (unsigned j = 0; j < 10; j++) {
            set_states(state);
            compare_move(distances[j]);
        }
    }
}

/* Both ways, with a key and a block of these lengths from some places in the halves of the source, to some place in the target. */
static void compare_blocks(const struct cipher *c, size_t key_len, size_t source_len, size_t target_len)
{
    const uint8_t *k = source + random_below(MIB / 2 - LENGTH), *block = source + MIB / 2 + random_below(MIB / 2 - LENGTH);
    const size_t to = random_below(64);

    expect(strumok_block_encipher(k, key_len, block, source_len, target + to, target_len)
               == c->encipher(k, key_len, block, source_len, other_target + to, target_len),
           "the numbers of enciphering");
    compare_targets(target_len);
    expect(strumok_block_decipher(k, key_len, block, source_len, target + to, target_len)
               == c->decipher(k, key_len, block, source_len, other_target + to, target_len),
           "the numbers of deciphering");
    compare_targets(target_len);
}

/* Blocks and keys that look random, then lengths that are refused, then blocks and keys of bytes 0 and FF. */
static void compare_block_cipher(const struct cipher *c)
{
    random_bytes(source, MIB);
    for (unsigned i = 0; i < 20000; i++)
        compare_blocks(c, BLOCK, BLOCK, BLOCK);
    for (size_t length = 0; length < LENGTH; length++) {
        compare_blocks(c, length, BLOCK, BLOCK);
        compare_blocks(c, BLOCK, length, BLOCK);
        compare_blocks(c, BLOCK, BLOCK, length);
    }
    for (unsigned byte = 0; byte < 256; byte += 255) {
        memset(source, (int)byte, MIB);
        compare_blocks(c, BLOCK, BLOCK, BLOCK);
    }
}

static int check(const char *vectors, const char *blocks)
{
    check_vectors(vectors);
    check_block_vectors(&in_c, blocks);
    check_block_vectors(&tuned, blocks);
    random_bytes(source, MIB);
    random_bytes(target, MIB);
    memcpy(other_target, target, MIB);
    for (size_t key_len = 32; key_len <= 64; key_len += 32) {
        random_bytes(key, LONGEST);
        random_bytes(iv, IV);
        compare_lengths(key_len);
        compare_damaged(key_len);
        compare_open(key_len, IV);
        for (unsigned i = 0; i < 3000; i++)
            compare_some_call(key_len);
    }
    compare_refusals();
    compare_zero_keys(32);
    compare_zero_keys(64);
    compare_alike_to_zeros();
    compare_block_cipher(&in_c);
    compare_block_cipher(&tuned);
    printf("bench: the ciphers in C have the published vectors and are the proved library's equals in %u comparisons\n", compared);
    return 0;
}

/* ---- The rows ---- */

enum call { OPENING, IN_PLACE, PORTION, MOVE, CHECK, ENCIPHERING, DECIPHERING };

static const struct row {
    const char *name, *label;
    const struct cipher *proved, *beside; /* the second is the one in C that the row is compared with */
    enum call call;
    int64_t length;     /* of the key, of a portion, of a move, of a block, or the position of a check */
    size_t timed_calls; /* in one sample */
    size_t counted_calls;
} rows[] = {
    {"open-256", "opening, key of 256 bits (a call)", &held, &in_c, OPENING, 32, 4000, 8},
    {"open-512", "opening, key of 512 bits (a call)", &held, &in_c, OPENING, 64, 4000, 8},
    {"16", "portions of 16 bytes in place", &held, &in_c, IN_PLACE, 16, 65536, 4096},
    {"64", "portions of 64 bytes in place", &held, &in_c, IN_PLACE, 64, 32768, 1024},
    {"256", "portions of 256 bytes in place", &held, &in_c, IN_PLACE, 256, 8192, 256},
    {"1024", "portions of 1,024 bytes in place", &held, &in_c, IN_PLACE, 1024, 2048, 64},
    {"4096", "portions of 4,096 bytes in place", &held, &in_c, IN_PLACE, 4096, 512, 16},
    {"1048576", "portions of 1 MiB in place", &held, &in_c, IN_PLACE, MIB, 2, 1},
    {"1048576-across", "portions of 1 MiB from a source to a target", &held, &in_c, PORTION, MIB, 2, 1},
    {"64-anew", "portions of 64 bytes in place, tables brought in at each call", &anew, &in_c, IN_PLACE, 64, 8192, 1024},
    {"1024-anew", "portions of 1,024 bytes in place, tables brought in at each call", &anew, &in_c, IN_PLACE, 1024, 2048, 64},
    {"forward", "move of 1 MiB forward", &held, &in_c, MOVE, MIB, 2, 1},
    {"back", "move of 1 MiB back", &held, &in_c, MOVE, -MIB, 2, 1},
    {"forward-far", "move of 16 MiB forward", &held, &in_c, MOVE, STRUMOK_LIMIT, 1, 1},
    {"check", "check at position 16,777,216", &held, &in_c, CHECK, STRUMOK_LIMIT, 1, 1},
    {"encipher", "enciphering a block with its key schedule (a call)", &anew, &in_c, ENCIPHERING, BLOCK, 4000, 8},
    {"decipher", "deciphering a block with its key schedule (a call)", &anew, &in_c, DECIPHERING, BLOCK, 4000, 8},
    {"encipher-tuned", "enciphering a block, beside C tuned by hand (a call)", &anew, &tuned, ENCIPHERING, BLOCK, 4000, 8},
    {"decipher-tuned", "deciphering a block, beside C tuned by hand (a call)", &anew, &tuned, DECIPHERING, BLOCK, 4000, 8},
};

enum { ROWS = sizeof rows / sizeof rows[0] };

/* So many calls of one row, one behind the other in an entry. 0 where all are accepted. */
__attribute__((noinline, noclone)) uint64_t measured(const struct cipher *cipher, const struct row *row, size_t calls, uint64_t *state);

uint64_t measured(const struct cipher *cipher, const struct row *row, size_t calls, uint64_t *state)
{
    const size_t length = (size_t)row->length;
    uint64_t numbers = 0;
    size_t at = 0;

    switch (row->call) {
    case OPENING:
        for (; calls > 0; calls--)
            numbers |= cipher->open(key, length, iv, IV, state);
        break;
    case IN_PLACE:
        for (; calls > 0; calls--, at = (at + length) % MIB)
            numbers |= cipher->window(state, target, MIB, at, length);
        break;
    case PORTION:
        for (; calls > 0; calls--, at = (at + length) % MIB)
            numbers |= cipher->apply(state, source + at, length, target + at, length);
        break;
    case MOVE:
        for (; calls > 0; calls--)
            numbers |= cipher->move(state, row->length);
        break;
    case CHECK:
        for (; calls > 0; calls--)
            numbers |= cipher->check(state, iv, IV, target, LONGEST);
        break;
    case ENCIPHERING:
        for (; calls > 0; calls--, at = (at + length) % MIB)
            numbers |= cipher->encipher(key, BLOCK, source + at, length, target + at, length);
        break;
    case DECIPHERING:
        for (; calls > 0; calls--, at = (at + length) % MIB)
            numbers |= cipher->decipher(key, BLOCK, source + at, length, target + at, length);
    }
    return numbers;
}

/* Where the first of so many calls of a row finds the state. */
static int64_t start_of(const struct row *row, size_t calls)
{
    if (row->call == CHECK)
        return row->length;
    return row->length < 0 ? -row->length * (int64_t)calls : 0;
}

/* The processor time of so many calls, in seconds. The state is opened and moved to the start of the row before. */
static double run(const struct cipher *cipher, const struct row *row, size_t calls)
{
    uint64_t state[WORDS];

    if (cipher->open(key, LONGEST, iv, IV, state) != 0 || cipher->move(state, start_of(row, calls)) != 0)
        stop("a row was not begun");
    const double begin = processor_time();
    const uint64_t numbers = measured(cipher, row, calls, state);
    const double end = processor_time();
    if (numbers != 0)
        stop("a call of a row was refused");
    return end - begin;
}

/* A line for each row, with tabs between: name, label, the best seconds of a call of the proved library and of the cipher in C. */
static int print_times(void)
{
    for (const struct row *row = rows; row < rows + ROWS; row++) {
        double best[2] = {1e9, 1e9}, spent = 0;
        while (spent < ROW_SECONDS) {
            for (unsigned which = 0; which < 2; which++) {
                const double seconds = run(which == 0 ? row->proved : row->beside, row, row->timed_calls);
                if (seconds < best[which])
                    best[which] = seconds;
                spent += seconds;
            }
        }
        printf("%s\t%s\t%.9g\t%.9g\n", row->name, row->label, best[0] / (double)row->timed_calls, best[1] / (double)row->timed_calls);
        fflush(stdout);
    }
    return 0;
}

/* The instructions of these rows are those of a call, and of the others those of a byte. */
static int is_counted_by_calls(const struct row *row)
{
    return row->call == OPENING || row->call == ENCIPHERING || row->call == DECIPHERING;
}

/* Runs a row to be counted, and prints by what its instructions are to be divided: the calls or the bytes. */
static int count(const char *row_name, const char *cipher_name)
{
    const int c = strcmp(cipher_name, "c") == 0;

    if (!c && strcmp(cipher_name, "proved") != 0)
        stop("there is no cipher of that name");
    for (const struct row *row = rows; row < rows + ROWS; row++) {
        if (strcmp(row->name, row_name) == 0) {
            run(c ? row->beside : row->proved, row, row->counted_calls);
            printf("%lld\n", (long long)row->counted_calls * (is_counted_by_calls(row) ? 1 : llabs(row->length)));
            return 0;
        }
    }
    stop("there is no row of that name");
    return 1;
}

int main(int argc, char **argv)
{
    const char *mode = argc > 2 ? argv[1] : "";

    if (argc > 2 && (strumok_in_c_fill_tables(argv[2]) != 0 || kalyna_in_c_fill_tables(argv[2]) != 0
                     || kalyna_tuned_in_c_fill_tables(argv[2]) != 0))
        stop("the file of the pi tables cannot be read");
    strumok_tables(tables);
    if (strcmp(mode, "check") == 0 && argc == 5)
        return check(argv[3], argv[4]);
    random_bytes(key, LONGEST);
    random_bytes(iv, IV);
    random_bytes(source, MIB);
    if (strcmp(mode, "time") == 0 && argc == 3)
        return print_times();
    if (strcmp(mode, "count") == 0 && argc == 5)
        return count(argv[3], argv[4]);
    fputs("usage: bench check PI VECTORS BLOCKS | bench time PI | bench count PI ROW proved|c\n", stderr);
    return 2;
}
