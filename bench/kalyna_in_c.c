/*
 * The block cipher in C by the tables of the proved library, in the plain way: a round is looked up in the tables of T, and back in those
 * of M inverse and, byte by byte, of pi inverse; bytes are shifted out of words. Of T and of M inverse there are eight tables; the proved
 * library has the first four of each, and exchanges halves of entries for the others, which would take gcc more instructions. The tables
 * are filled at the start, and all rounds stand one behind the other. For little-endian machines.
 */
#include "kalyna_in_c.h"

#include "tables_in_c.h"

#include <string.h>

enum { BYTES = 32, WORDS = 4, KEYS = 15 };

static struct {
    uint64_t t[8][256];         /* entry b of table j: column j of M times pi(j mod 4) of b */
    uint64_t m_inverse[8][256]; /* entry b of table j: column j of the inverse times b */
    uint8_t pi_inverse[4][256];
} tables;

/* A block, a key or a round key: word 0 has the first eight bytes, least significant first. */
struct block {
    uint64_t word[WORDS];
};

int kalyna_in_c_fill_tables(const char *pi_file)
{
    uint8_t pi[4][256];

    if (read_pi(pi_file, pi) != 0)
        return 1;
    for (unsigned j = 0; j < 8; j++) {
        for (unsigned b = 0; b < 256; b++) {
            tables.pi_inverse[j % 4][pi[j % 4][b]] = (uint8_t)b;
            tables.t[j][b] = row_times(column(ROW_OF_M, j), pi[j % 4][b]);
            tables.m_inverse[j][b] = row_times(column(ROW_OF_M_INVERSE, j), (uint8_t)b);
        }
    }
    return 0;
}

/* For small functions, which are to stand where they are called. */
#define INLINE static inline __attribute__((always_inline))

/* ---- Round keys, word by word ---- */

INLINE struct block add(struct block x, struct block y)
{
    return (struct block){{x.word[0] + y.word[0], x.word[1] + y.word[1], x.word[2] + y.word[2], x.word[3] + y.word[3]}};
}

INLINE struct block subtract(struct block x, struct block y)
{
    return (struct block){{x.word[0] - y.word[0], x.word[1] - y.word[1], x.word[2] - y.word[2], x.word[3] - y.word[3]}};
}

INLINE struct block xor(struct block x, struct block y)
{
    return (struct block){{x.word[0] ^ y.word[0], x.word[1] ^ y.word[1], x.word[2] ^ y.word[2], x.word[3] ^ y.word[3]}};
}

/* ---- A round and a round back ---- */

/* The xor of the entries of eight tables: at tables 0 and 1 bytes 0 and 1 of a, at the next two bytes 2 and 3 of b, and so on. */
INLINE uint64_t look_up(uint64_t (*table)[256], uint64_t a, uint64_t b, uint64_t c, uint64_t d)
{
    return table[0][(uint8_t)a] ^ table[1][(uint8_t)(a >> 8)] ^ table[2][(uint8_t)(b >> 16)] ^ table[3][(uint8_t)(b >> 24)]
           ^ table[4][(uint8_t)(c >> 32)] ^ table[5][(uint8_t)(c >> 40)] ^ table[6][(uint8_t)(d >> 48)] ^ table[7][d >> 56];
}

/* Substitution, shift and mixing: word c has its bytes from the words c, c - 1, c - 2 and c - 3, counted modulo 4. */
INLINE struct block round_forward(struct block x)
{
    const uint64_t *w = x.word;

    return (struct block){{look_up(tables.t, w[0], w[3], w[2], w[1]), look_up(tables.t, w[1], w[0], w[3], w[2]),
                           look_up(tables.t, w[2], w[1], w[0], w[3]), look_up(tables.t, w[3], w[2], w[1], w[0])}};
}

/* M inverse times a word. */
INLINE uint64_t unmix(uint64_t w)
{
    return look_up(tables.m_inverse, w, w, w, w);
}

/* Two bytes of each word, from the first two of a on, each through its inverse of pi. */
INLINE uint64_t unsubstitute(uint64_t a, uint64_t b, uint64_t c, uint64_t d)
{
    uint8_t(*table)[256] = tables.pi_inverse;

    return table[0][(uint8_t)a] | (uint64_t)table[1][(uint8_t)(a >> 8)] << 8 | (uint64_t)table[2][(uint8_t)(b >> 16)] << 16
           | (uint64_t)table[3][(uint8_t)(b >> 24)] << 24 | (uint64_t)table[0][(uint8_t)(c >> 32)] << 32
           | (uint64_t)table[1][(uint8_t)(c >> 40)] << 40 | (uint64_t)table[2][(uint8_t)(d >> 48)] << 48
           | (uint64_t)table[3][d >> 56] << 56;
}

/* Mixing by M inverse, the shift back and pi inverse: word c has its bytes from the words c, c + 1, c + 2 and c + 3. */
INLINE struct block round_back(struct block x)
{
    const uint64_t a = unmix(x.word[0]), b = unmix(x.word[1]), c = unmix(x.word[2]), d = unmix(x.word[3]);

    return (struct block){{unsubstitute(a, b, c, d), unsubstitute(b, c, d, a), unsubstitute(c, d, a, b), unsubstitute(d, a, b, c)}};
}

/* ---- The key schedule ---- */

INLINE struct block intermediate_key(struct block key)
{
    struct block x = round_forward(add((struct block){{9, 0, 0, 0}}, key));

    x = round_forward(xor(x, key));
    return round_forward(add(x, key));
}

/* Round key 2i. */
INLINE struct block even_key(struct block key, struct block intermediate, unsigned i)
{
    const uint64_t *k = key.word, c = UINT64_C(0x0001000100010001) << i;
    const struct block mask = add(intermediate, (struct block){{c, c, c, c}});
    struct block x = {{k[i % 4], k[(i + 1) % 4], k[(i + 2) % 4], k[(i + 3) % 4]}};

    x = round_forward(add(x, mask));
    x = round_forward(xor(x, mask));
    return add(x, mask);
}

/* The round key after an even one: its bytes from byte 11 on, then the first eleven. */
INLINE struct block odd_key(struct block even)
{
    const uint64_t *w = even.word;

    return (struct block){{w[1] >> 24 | w[2] << 40, w[2] >> 24 | w[3] << 40, w[3] >> 24 | w[0] << 40, w[0] >> 24 | w[1] << 40}};
}

/* The fifteen round keys. */
INLINE void round_keys(struct block keys[KEYS], struct block key)
{
    const struct block intermediate = intermediate_key(key);

#pragma GCC unroll 8
    for (unsigned i = 0; i < 8; i++) {
        keys[2 * i] = even_key(key, intermediate, i);
        if (i < 7)
            keys[2 * i + 1] = odd_key(keys[2 * i]);
    }
}

/* ---- The calls ---- */

INLINE struct block block_at(const uint8_t *bytes)
{
    struct block x;

    memcpy(x.word, bytes, BYTES);
    return x;
}

uint64_t kalyna_in_c_encipher(const uint8_t *key, size_t key_len, const uint8_t *source, size_t source_len, uint8_t *target,
                              size_t target_len)
{
    struct block keys[KEYS], x;

    if (key_len != BYTES || source_len != BYTES || target_len != BYTES)
        return STRUMOK_REFUSED_BLOCK_LENGTH;
    round_keys(keys, block_at(key));
    x = add(block_at(source), keys[0]);
#pragma GCC unroll 13
    for (unsigned i = 1; i < 14; i++)
        x = xor(round_forward(x), keys[i]);
    x = add(round_forward(x), keys[14]);
    memcpy(target, x.word, BYTES);
    return STRUMOK_ACCEPTED;
}

uint64_t kalyna_in_c_decipher(const uint8_t *key, size_t key_len, const uint8_t *source, size_t source_len, uint8_t *target,
                              size_t target_len)
{
    struct block keys[KEYS], x;

    if (key_len != BYTES || source_len != BYTES || target_len != BYTES)
        return STRUMOK_REFUSED_BLOCK_LENGTH;
    round_keys(keys, block_at(key));
    x = round_back(subtract(block_at(source), keys[14]));
#pragma GCC unroll 13
    for (unsigned i = 13; i > 0; i--)
        x = round_back(xor(x, keys[i]));
    x = subtract(x, keys[0]);
    memcpy(target, x.word, BYTES);
    return STRUMOK_ACCEPTED;
}
