/*
 * The cipher in C, written for speed by hand: every substitution and product is looked up in tables, which are filled at the start; long
 * walks take sixteen steps at a time, with the cells in sixteen locals that take turns, so that no cell is moved; a few steps write their
 * new cells behind the old ones, so that the cells are copied once for all of them. For little-endian machines.
 */
#include "strumok_in_c.h"

#include "tables_in_c.h"

#include <string.h>

enum { CELLS = 16, BLOCK = 8 * CELLS, IV_LENGTH = 32, LONGEST_KEY = 64, INITIAL_STEPS = 32 };

/* The rows of alpha and of its inverse: the first byte is the most significant. */
#define ROW_OF_ALPHA UINT64_C(0xD73F04125E000004)
#define ROW_OF_ALPHA_INVERSE UINT64_C(0x47FCC6018A990000)

static struct {
    uint64_t t[8][256]; /* entry b of table j: column j of M times pi(j mod 4) of b */
    uint64_t alpha[256];
    uint64_t alpha_inverse[256];
    uint64_t m_inverse[8][256]; /* entry b of table j: column j of the inverse times b */
    uint8_t pi_inverse[4][256];
} tables;

int strumok_in_c_fill_tables(const char *pi_file)
{
    uint8_t pi[4][256];

    if (read_pi(pi_file, pi) != 0)
        return 1;
    for (unsigned b = 0; b < 256; b++) {
        tables.alpha[b] = row_times(ROW_OF_ALPHA, (uint8_t)b);
        tables.alpha_inverse[b] = row_times(ROW_OF_ALPHA_INVERSE, (uint8_t)b);
        for (unsigned j = 0; j < 4; j++)
            tables.pi_inverse[j][pi[j][b]] = (uint8_t)b;
        for (unsigned j = 0; j < 8; j++) {
            tables.t[j][b] = row_times(column(ROW_OF_M, j), pi[j % 4][b]);
            tables.m_inverse[j][b] = row_times(column(ROW_OF_M_INVERSE, j), (uint8_t)b);
        }
    }
    return 0;
}

static inline uint64_t word_at(const uint8_t *bytes)
{
    uint64_t word;

    memcpy(&word, bytes, 8);
    return word;
}

static inline void put_word(uint8_t *bytes, uint64_t word)
{
    memcpy(bytes, &word, 8);
}

static inline uint64_t times_alpha(uint64_t w)
{
    return w << 8 ^ tables.alpha[w >> 56];
}

static inline uint64_t over_alpha(uint64_t w)
{
    return w >> 8 ^ tables.alpha_inverse[w & 255];
}

/* The xor of the entries of eight tables, byte j of the word at table j. */
static inline uint64_t look_up(uint64_t (*table)[256], uint64_t w)
{
    return table[0][w & 255] ^ table[1][w >> 8 & 255] ^ table[2][w >> 16 & 255] ^ table[3][w >> 24 & 255] ^ table[4][w >> 32 & 255]
           ^ table[5][w >> 40 & 255] ^ table[6][w >> 48 & 255] ^ table[7][w >> 56];
}

/* T. */
static inline uint64_t substitute(uint64_t w)
{
    return look_up(tables.t, w);
}

/* Four bytes, each through its inverse of pi. */
static inline uint32_t pi_back(uint32_t r)
{
    return tables.pi_inverse[0][r & 255] | (uint32_t)tables.pi_inverse[1][r >> 8 & 255] << 8
           | (uint32_t)tables.pi_inverse[2][r >> 16 & 255] << 16 | (uint32_t)tables.pi_inverse[3][r >> 24] << 24;
}

/* T inverted. */
static inline uint64_t substitute_back(uint64_t w)
{
    const uint64_t r = look_up(tables.m_inverse, w);

    return (uint64_t)pi_back((uint32_t)(r >> 32)) << 32 | pi_back((uint32_t)r);
}

/* The cells and registers of a state in locals, and back. */
#define TAKE_STATE(state)                                                                                                             \
    uint64_t c0 = (state)[0], c1 = (state)[1], c2 = (state)[2], c3 = (state)[3], c4 = (state)[4], c5 = (state)[5], c6 = (state)[6],   \
             c7 = (state)[7], c8 = (state)[8], c9 = (state)[9], c10 = (state)[10], c11 = (state)[11], c12 = (state)[12],              \
             c13 = (state)[13], c14 = (state)[14], c15 = (state)[15], r1 = (state)[STRUMOK_R1], r2 = (state)[STRUMOK_R2]
#define GIVE_STATE(state)                                                                                                             \
    ((state)[0] = c0, (state)[1] = c1, (state)[2] = c2, (state)[3] = c3, (state)[4] = c4, (state)[5] = c5, (state)[6] = c6,           \
     (state)[7] = c7, (state)[8] = c8, (state)[9] = c9, (state)[10] = c10, (state)[11] = c11, (state)[12] = c12, (state)[13] = c13,   \
     (state)[14] = c14, (state)[15] = c15, (state)[STRUMOK_R1] = r1, (state)[STRUMOK_R2] = r2)

/*
 * Sixteen steps: STEP is given the number of the step and the locals that are s0, s11, s13 and s15 in it. The new s15 takes the place of
 * the old s0.
 */
#define SIXTEEN_STEPS(STEP)                                                                                                           \
    do {                                                                                                                              \
        STEP(0, c0, c11, c13, c15);                                                                                                   \
        STEP(1, c1, c12, c14, c0);                                                                                                    \
        STEP(2, c2, c13, c15, c1);                                                                                                    \
        STEP(3, c3, c14, c0, c2);                                                                                                     \
        STEP(4, c4, c15, c1, c3);                                                                                                     \
        STEP(5, c5, c0, c2, c4);                                                                                                      \
        STEP(6, c6, c1, c3, c5);                                                                                                      \
        STEP(7, c7, c2, c4, c6);                                                                                                      \
        STEP(8, c8, c3, c5, c7);                                                                                                      \
        STEP(9, c9, c4, c6, c8);                                                                                                      \
        STEP(10, c10, c5, c7, c9);                                                                                                    \
        STEP(11, c11, c6, c8, c10);                                                                                                   \
        STEP(12, c12, c7, c9, c11);                                                                                                   \
        STEP(13, c13, c8, c10, c12);                                                                                                  \
        STEP(14, c14, c9, c11, c13);                                                                                                  \
        STEP(15, c15, c10, c12, c14);                                                                                                 \
    } while (0)

/* Sixteen steps back: STEP is given the locals that are s10, s12, s14 and s15 before it. The s0 found takes the place of s15. */
#define SIXTEEN_STEPS_BACK(STEP)                                                                                                      \
    do {                                                                                                                              \
        STEP(c10, c12, c14, c15);                                                                                                     \
        STEP(c9, c11, c13, c14);                                                                                                      \
        STEP(c8, c10, c12, c13);                                                                                                      \
        STEP(c7, c9, c11, c12);                                                                                                       \
        STEP(c6, c8, c10, c11);                                                                                                       \
        STEP(c5, c7, c9, c10);                                                                                                        \
        STEP(c4, c6, c8, c9);                                                                                                         \
        STEP(c3, c5, c7, c8);                                                                                                         \
        STEP(c2, c4, c6, c7);                                                                                                         \
        STEP(c1, c3, c5, c6);                                                                                                         \
        STEP(c0, c2, c4, c5);                                                                                                         \
        STEP(c15, c1, c3, c4);                                                                                                        \
        STEP(c14, c0, c2, c3);                                                                                                        \
        STEP(c13, c15, c1, c2);                                                                                                       \
        STEP(c12, c14, c0, c1);                                                                                                       \
        STEP(c11, c13, c15, c0);                                                                                                      \
    } while (0)

/* The registers of the next step, from those of this one and s13; and those of the step before, where s13 stands at s12. */
#define NEXT_REGISTERS(s13)                                                                                                           \
    do {                                                                                                                              \
        const uint64_t new_r1 = r2 + (s13);                                                                                           \
        r2 = substitute(r1);                                                                                                          \
        r1 = new_r1;                                                                                                                  \
    } while (0)
#define REGISTERS_BEFORE(s12)                                                                                                         \
    do {                                                                                                                              \
        const uint64_t old_r2 = r1 - (s12);                                                                                           \
        r1 = substitute_back(r2);                                                                                                     \
        r2 = old_r2;                                                                                                                  \
    } while (0)

#define WALK_STEP(i, s0, s11, s13, s15)                                                                                               \
    do {                                                                                                                              \
        s0 = times_alpha(s0) ^ over_alpha(s11) ^ s13;                                                                                 \
        NEXT_REGISTERS(s13);                                                                                                          \
    } while (0)
#define APPLY_STEP(i, s0, s11, s13, s15)                                                                                              \
    do {                                                                                                                              \
        put_word(target + 8 * (i), word_at(source + 8 * (i)) ^ ((s15 + r1) ^ r2 ^ s0));                                               \
        WALK_STEP(i, s0, s11, s13, s15);                                                                                              \
    } while (0)
#define INITIAL_STEP(i, s0, s11, s13, s15)                                                                                            \
    do {                                                                                                                              \
        s0 = times_alpha(s0) ^ over_alpha(s11) ^ s13 ^ ((s15 + r1) ^ r2);                                                             \
        NEXT_REGISTERS(s13);                                                                                                          \
    } while (0)
#define BACK_STEP(s10, s12, s14, s15)                                                                                                 \
    do {                                                                                                                              \
        REGISTERS_BEFORE(s12);                                                                                                        \
        s15 = over_alpha(s15 ^ over_alpha(s10) ^ s12);                                                                                \
    } while (0)
#define INITIAL_BACK_STEP(s10, s12, s14, s15)                                                                                         \
    do {                                                                                                                              \
        REGISTERS_BEFORE(s12);                                                                                                        \
        s15 = over_alpha(s15 ^ over_alpha(s10) ^ s12 ^ ((s14 + r1) ^ r2));                                                            \
    } while (0)

static void apply_blocks(uint64_t *state, const uint8_t *source, uint8_t *target, size_t blocks)
{
    TAKE_STATE(state);
    for (; blocks > 0; blocks--, source += BLOCK, target += BLOCK)
        SIXTEEN_STEPS(APPLY_STEP);
    GIVE_STATE(state);
}

static void walk_blocks(uint64_t *state, size_t blocks)
{
    TAKE_STATE(state);
    for (; blocks > 0; blocks--)
        SIXTEEN_STEPS(WALK_STEP);
    GIVE_STATE(state);
}

static void walk_blocks_back(uint64_t *state, size_t blocks)
{
    TAKE_STATE(state);
    for (; blocks > 0; blocks--)
        SIXTEEN_STEPS_BACK(BACK_STEP);
    GIVE_STATE(state);
}

/* The 32 steps of initialisation. */
static void initialise(uint64_t *state)
{
    TAKE_STATE(state);
    for (int blocks = INITIAL_STEPS / CELLS; blocks > 0; blocks--)
        SIXTEEN_STEPS(INITIAL_STEP);
    GIVE_STATE(state);
}

static void initialise_back(uint64_t *state)
{
    TAKE_STATE(state);
    for (int blocks = INITIAL_STEPS / CELLS; blocks > 0; blocks--)
        SIXTEEN_STEPS_BACK(INITIAL_BACK_STEP);
    GIVE_STATE(state);
}

/* The new s15 of an ordinary step from these cells. */
static inline uint64_t next_cell(const uint64_t *s)
{
    return times_alpha(s[0]) ^ over_alpha(s[11]) ^ s[13];
}

/* Applies fewer than sixteen words. */
static void apply_words(uint64_t *state, const uint8_t *source, uint8_t *target, size_t words)
{
    uint64_t cells[2 * CELLS], r1 = state[STRUMOK_R1], r2 = state[STRUMOK_R2];

    memcpy(cells, state, 8 * CELLS);
    for (size_t i = 0; i < words; i++) {
        const uint64_t *s = cells + i;
        put_word(target + 8 * i, word_at(source + 8 * i) ^ ((s[15] + r1) ^ r2 ^ s[0]));
        cells[i + CELLS] = next_cell(s);
        NEXT_REGISTERS(s[13]);
    }
    memcpy(state, cells + words, 8 * CELLS);
    state[STRUMOK_R1] = r1;
    state[STRUMOK_R2] = r2;
}

/* Walks fewer than sixteen steps on. */
static void walk_words(uint64_t *state, size_t words)
{
    uint64_t cells[2 * CELLS], r1 = state[STRUMOK_R1], r2 = state[STRUMOK_R2];

    memcpy(cells, state, 8 * CELLS);
    for (size_t i = 0; i < words; i++) {
        const uint64_t *s = cells + i;
        cells[i + CELLS] = next_cell(s);
        NEXT_REGISTERS(s[13]);
    }
    memcpy(state, cells + words, 8 * CELLS);
    state[STRUMOK_R1] = r1;
    state[STRUMOK_R2] = r2;
}

/* Walks fewer than sixteen steps back: the cells found stand before the others. */
static void walk_words_back(uint64_t *state, size_t words)
{
    uint64_t cells[2 * CELLS], r1 = state[STRUMOK_R1], r2 = state[STRUMOK_R2], *s = cells + CELLS;

    memcpy(s, state, 8 * CELLS);
    for (; words > 0; words--) {
        s[-1] = over_alpha(s[15] ^ over_alpha(s[10]) ^ s[12]);
        REGISTERS_BEFORE(s[12]);
        s--;
    }
    memcpy(state, s, 8 * CELLS);
    state[STRUMOK_R1] = r1;
    state[STRUMOK_R2] = r2;
}

static void walk(uint64_t *state, size_t words)
{
    if (words >= CELLS)
        walk_blocks(state, words / CELLS);
    if (words % CELLS != 0)
        walk_words(state, words % CELLS);
}

static void walk_back(uint64_t *state, size_t words)
{
    if (words >= CELLS)
        walk_blocks_back(state, words / CELLS);
    if (words % CELLS != 0)
        walk_words_back(state, words % CELLS);
}

/* The words of a key or an IV: the highest word stands first, each most significant byte first. */
static void words_of(const uint8_t *bytes, size_t length, uint64_t *words)
{
    for (size_t i = 0; i < length / 8; i++)
        words[i] = __builtin_bswap64(word_at(bytes + length - 8 - 8 * i));
}

static void bytes_of(const uint64_t *words, size_t length, uint8_t *bytes)
{
    for (size_t i = 0; i < length / 8; i++)
        put_word(bytes + length - 8 - 8 * i, __builtin_bswap64(words[i]));
}

static void load_256(uint64_t *s, const uint64_t *k, const uint64_t *iv)
{
    s[15] = ~k[0];
    s[14] = k[1];
    s[13] = ~k[2];
    s[12] = k[3];
    s[11] = k[0];
    s[10] = ~k[1];
    s[9] = k[2];
    s[8] = k[3];
    s[7] = ~k[0];
    s[6] = ~k[1];
    s[5] = k[2] ^ iv[3];
    s[4] = k[3];
    s[3] = k[0] ^ iv[2];
    s[2] = k[1] ^ iv[1];
    s[1] = k[2];
    s[0] = k[3] ^ iv[0];
}

static void load_512(uint64_t *s, const uint64_t *k, const uint64_t *iv)
{
    s[15] = k[0];
    s[14] = ~k[1];
    s[13] = k[2];
    s[12] = k[3];
    s[11] = ~k[7];
    s[10] = k[5];
    s[9] = ~k[6];
    s[8] = k[4] ^ iv[3];
    s[7] = ~k[0];
    s[6] = k[1];
    s[5] = k[2] ^ iv[2];
    s[4] = k[3];
    s[3] = k[4] ^ iv[1];
    s[2] = k[5];
    s[1] = k[6];
    s[0] = k[7] ^ iv[0];
}

/* The sixteen cells that a key of this length and an IV load. */
static void load(uint64_t *s, const uint64_t *k, size_t key_len, const uint64_t *iv)
{
    if (key_len == 32)
        load_256(s, k, iv);
    else
        load_512(s, k, iv);
}

/* The words of the one key of this length that, with this IV, can have loaded these cells. */
static void key_of_cells(const uint64_t *s, const uint64_t *iv, uint64_t *k, size_t key_len)
{
    if (key_len == 32) {
        k[0] = ~s[15];
        k[1] = s[14];
        k[2] = ~s[13];
        k[3] = s[12];
        return;
    }
    k[0] = s[15];
    k[1] = ~s[14];
    k[2] = s[13];
    k[3] = s[12];
    k[4] = s[8] ^ iv[3];
    k[5] = s[10];
    k[6] = ~s[9];
    k[7] = ~s[11];
}

static int all_zero(const uint64_t *words, size_t count)
{
    uint64_t bits = 0;

    for (size_t i = 0; i < count; i++)
        bits |= words[i];
    return bits == 0;
}

/* The number of an opening. The words of the key are written where both lengths are right. */
static uint64_t number_of_opening(const uint8_t *key, size_t key_len, size_t iv_len, uint64_t *k)
{
    if (key_len != 32 && key_len != 64)
        return STRUMOK_REFUSED_KEY_LENGTH;
    if (iv_len != IV_LENGTH)
        return STRUMOK_REFUSED_IV_LENGTH;
    words_of(key, key_len, k);
    return all_zero(k, key_len / 8) ? STRUMOK_REFUSED_ZERO_KEY : STRUMOK_ACCEPTED;
}

uint64_t strumok_in_c_open(const uint8_t *key, size_t key_len, const uint8_t *iv, size_t iv_len, uint64_t state[STRUMOK_STATE_WORDS])
{
    uint64_t k[LONGEST_KEY / 8], v[IV_LENGTH / 8];
    const uint64_t number = number_of_opening(key, key_len, iv_len, k);

    if (number != STRUMOK_ACCEPTED) {
        memset(state, 0, 8 * STRUMOK_STATE_WORDS);
        return number;
    }
    words_of(iv, IV_LENGTH, v);
    load(state, k, key_len, v);
    state[STRUMOK_R1] = state[STRUMOK_R2] = 0;
    initialise(state);
    walk_words(state, 1);
    state[STRUMOK_SIZE_MARK] = 8 * key_len;
    state[STRUMOK_POSITION] = 0;
    return STRUMOK_ACCEPTED;
}

/* The refusals that concern the state alone. */
static inline uint64_t number_of_state(const uint64_t *state)
{
    if (state[STRUMOK_SIZE_MARK] != 256 && state[STRUMOK_SIZE_MARK] != 512)
        return STRUMOK_REFUSED_SIZE_MARK;
    return state[STRUMOK_POSITION] > STRUMOK_LIMIT ? STRUMOK_REFUSED_POSITION_ABOVE : STRUMOK_ACCEPTED;
}

/* Applies part of the state's keystream word: so many bytes from this byte on. */
static void apply_bytes(const uint64_t *state, size_t from, const uint8_t *source, uint8_t *target, size_t count)
{
    uint64_t z = ((state[15] + state[STRUMOK_R1]) ^ state[STRUMOK_R2] ^ state[0]) >> 8 * from;

    for (size_t i = 0; i < count; i++, z >>= 8)
        target[i] = source[i] ^ (uint8_t)z;
}

uint64_t strumok_in_c_apply(uint64_t state[STRUMOK_STATE_WORDS], const uint8_t *source, size_t source_len, uint8_t *target,
                            size_t target_len)
{
    const uint64_t number = number_of_state(state), position = state[STRUMOK_POSITION];
    const size_t from = position % 8;
    size_t left = source_len;

    if (number != STRUMOK_ACCEPTED)
        return number;
    if (target_len < source_len)
        return STRUMOK_REFUSED_TARGET_SHORTER;
    if (source_len > STRUMOK_LIMIT - position)
        return STRUMOK_REFUSED_NEW_POSITION_ABOVE;
    state[STRUMOK_POSITION] = position + source_len;

    if (from != 0) {
        const size_t count = left < 8 - from ? left : 8 - from;
        apply_bytes(state, from, source, target, count);
        if (from + count < 8)
            return STRUMOK_ACCEPTED;
        walk_words(state, 1);
        source += count;
        target += count;
        left -= count;
    }
    if (left >= BLOCK) {
        const size_t length = left / BLOCK * BLOCK;
        apply_blocks(state, source, target, left / BLOCK);
        source += length;
        target += length;
        left -= length;
    }
    if (left >= 8)
        apply_words(state, source, target, left / 8);
    if (left % 8 != 0)
        apply_bytes(state, 0, source + left / 8 * 8, target + left / 8 * 8, left % 8);
    return STRUMOK_ACCEPTED;
}

uint64_t strumok_in_c_move(uint64_t state[STRUMOK_STATE_WORDS], int64_t distance)
{
    const uint64_t number = number_of_state(state);
    const int64_t position = (int64_t)state[STRUMOK_POSITION];

    if (number != STRUMOK_ACCEPTED)
        return number;
    if (distance > STRUMOK_LIMIT - position)
        return STRUMOK_REFUSED_NEW_POSITION_ABOVE;
    if (distance < -position)
        return STRUMOK_REFUSED_NEW_POSITION_BELOW;

    const int64_t new_position = position + distance;
    if (distance >= 0)
        walk(state, (size_t)(new_position / 8 - position / 8));
    else
        walk_back(state, (size_t)(position / 8 - new_position / 8));
    state[STRUMOK_POSITION] = (uint64_t)new_position;
    return STRUMOK_ACCEPTED;
}

uint64_t strumok_in_c_check(const uint64_t state[STRUMOK_STATE_WORDS], const uint8_t *iv, size_t iv_len, uint8_t *key, size_t key_len)
{
    uint64_t start[STRUMOK_STATE_WORDS], loaded[CELLS], k[LONGEST_KEY / 8], v[IV_LENGTH / 8];

    if (iv_len != IV_LENGTH)
        return STRUMOK_REFUSED_IV_LENGTH;
    if (number_of_state(state) != STRUMOK_ACCEPTED)
        return number_of_state(state);
    if (key_len != state[STRUMOK_SIZE_MARK] / 8)
        return STRUMOK_REFUSED_KEY_TARGET_LENGTH;

    memcpy(start, state, sizeof start);
    walk_back(start, (size_t)(state[STRUMOK_POSITION] / 8 + 1));
    initialise_back(start);
    words_of(iv, IV_LENGTH, v);
    key_of_cells(start, v, k, key_len);
    load(loaded, k, key_len, v);
    if (start[STRUMOK_R1] != 0 || start[STRUMOK_R2] != 0 || memcmp(start, loaded, sizeof loaded) != 0 || all_zero(k, key_len / 8))
        return STRUMOK_REFUSED_NO_KEY_LEADS;
    bytes_of(k, key_len, key);
    return STRUMOK_ACCEPTED;
}
