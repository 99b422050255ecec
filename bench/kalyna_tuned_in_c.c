/*
 * The block cipher in C, tuned by hand for few instructions: all rounds stand one behind the other, and each is looked up in eight tables,
 * which are filled at the start; the shift is only which byte is taken where. What kalyna_in_c.c does not do: the bytes of a block are read
 * from memory, where each round leaves its words, which takes fewer instructions than to shift them out of the words, though not less time;
 * and deciphering has tables of its own, of M inverse times what pi inverse gives, so that pi inverse of one round and M inverse of the next
 * are looked up together. For little-endian machines.
 */
#include "kalyna_in_c.h"

#include "tables_in_c.h"

#include <string.h>

/* Moved two at a time, in vectors, words would take gcc more instructions. */
#pragma GCC optimize("no-tree-slp-vectorize")

enum { BYTES = 32, WORDS = 4, KEYS = 15 };

static struct {
    uint64_t t[8][256];         /* entry b of table j: column j of M times pi(j mod 4) of b */
    uint64_t m_inverse[8][256]; /* entry b of table j: column j of the inverse times b */
    uint64_t back[8][256];      /* entry b of table j: column j of the inverse times pi inverse (j mod 4) of b */
    uint8_t pi_inverse[4][256];
} tables;

/* A block, a key or a round key: its words, of which word 0 has the first eight bytes, least significant first; and its bytes. */
union block {
    uint64_t word[WORDS];
    uint8_t byte[BYTES];
};

int kalyna_tuned_in_c_fill_tables(const char *pi_file)
{
    uint8_t pi[4][256];

    if (read_pi(pi_file, pi) != 0)
        return 1;
    for (unsigned j = 0; j < 8; j++) {
        for (unsigned b = 0; b < 256; b++) {
            const uint8_t substituted = pi[j % 4][b];
            tables.pi_inverse[j % 4][substituted] = (uint8_t)b;
            tables.t[j][b] = row_times(column(ROW_OF_M, j), substituted);
            tables.m_inverse[j][b] = tables.back[j][substituted] = row_times(column(ROW_OF_M_INVERSE, j), (uint8_t)b);
        }
    }
    return 0;
}

/* For small functions, which are to stand where they are called. */
#define INLINE static inline __attribute__((always_inline))

/* The block stands in memory from here on, where its bytes are read. */
INLINE void to_memory(union block *x)
{
    __asm__("" : "+m"(x->word[0]), "+m"(x->word[1]), "+m"(x->word[2]), "+m"(x->word[3]));
}

/* The xor of the entries of eight tables: at tables 0 and 1 bytes 0 and 1 of word a, at the next two bytes 2 and 3 of word b, and so on. */
INLINE uint64_t look_up(uint64_t (*table)[256], const union block *x, unsigned a, unsigned b, unsigned c, unsigned d)
{
    const uint8_t *byte = x->byte;

    return table[0][byte[8 * a]] ^ table[1][byte[8 * a + 1]] ^ table[2][byte[8 * b + 2]] ^ table[3][byte[8 * b + 3]]
           ^ table[4][byte[8 * c + 4]] ^ table[5][byte[8 * c + 5]] ^ table[6][byte[8 * d + 6]] ^ table[7][byte[8 * d + 7]];
}

INLINE void put_words(union block *x, uint64_t w0, uint64_t w1, uint64_t w2, uint64_t w3)
{
    x->word[0] = w0;
    x->word[1] = w1;
    x->word[2] = w2;
    x->word[3] = w3;
}

/* A round of x, then xor of the key: word c has its bytes from the words c, c - 1, c - 2 and c - 3, counted modulo 4. */
INLINE void round_and_xor(union block *y, union block *x, const union block *key)
{
    to_memory(x);
    put_words(y, look_up(tables.t, x, 0, 3, 2, 1) ^ key->word[0], look_up(tables.t, x, 1, 0, 3, 2) ^ key->word[1],
              look_up(tables.t, x, 2, 1, 0, 3) ^ key->word[2], look_up(tables.t, x, 3, 2, 1, 0) ^ key->word[3]);
}

/* The same with the sum, word by word. */
INLINE void round_and_sum(union block *y, union block *x, const union block *key)
{
    to_memory(x);
    put_words(y, look_up(tables.t, x, 0, 3, 2, 1) + key->word[0], look_up(tables.t, x, 1, 0, 3, 2) + key->word[1],
              look_up(tables.t, x, 2, 1, 0, 3) + key->word[2], look_up(tables.t, x, 3, 2, 1, 0) + key->word[3]);
}

/* M inverse times each word of x. */
INLINE void unmix(union block *y, union block *x)
{
    to_memory(x);
    put_words(y, look_up(tables.m_inverse, x, 0, 0, 0, 0), look_up(tables.m_inverse, x, 1, 1, 1, 1),
              look_up(tables.m_inverse, x, 2, 2, 2, 2), look_up(tables.m_inverse, x, 3, 3, 3, 3));
}

/*
 * The shift back and pi inverse, then xor of the key, then M inverse: word c has its bytes from the words c, c + 1, c + 2 and c + 3. M
 * inverse of a xor is the xor of M inverse of both, so what is looked up has M inverse in it, and M inverse of the key is made apart.
 */
INLINE void round_back(union block *y, union block *x, union block *key)
{
    union block unmixed;

    unmix(&unmixed, key);
    to_memory(x);
    put_words(y, look_up(tables.back, x, 0, 1, 2, 3) ^ unmixed.word[0], look_up(tables.back, x, 1, 2, 3, 0) ^ unmixed.word[1],
              look_up(tables.back, x, 2, 3, 0, 1) ^ unmixed.word[2], look_up(tables.back, x, 3, 0, 1, 2) ^ unmixed.word[3]);
}

/* The shift back and pi inverse. */
INLINE void unshift(union block *y, union block *x)
{
    to_memory(x);
#pragma GCC unroll 32
    for (unsigned i = 0; i < BYTES; i++)
        y->byte[i] = tables.pi_inverse[i % 4][x->byte[(i + i % 8 / 2 * 8) % BYTES]];
    to_memory(y);
}

INLINE void add(union block *x, const union block *y)
{
    put_words(x, x->word[0] + y->word[0], x->word[1] + y->word[1], x->word[2] + y->word[2], x->word[3] + y->word[3]);
}

INLINE void subtract(union block *x, const union block *y)
{
    put_words(x, x->word[0] - y->word[0], x->word[1] - y->word[1], x->word[2] - y->word[2], x->word[3] - y->word[3]);
}

INLINE void intermediate_key(union block *intermediate, const union block *key)
{
    static const union block zeros;
    union block x = {{9, 0, 0, 0}}, y;

    add(&x, key);
    round_and_xor(&y, &x, key);
    round_and_sum(&x, &y, key);
    round_and_xor(intermediate, &x, &zeros);
}

/* Round key 2i. */
INLINE void even_key(union block *even, const union block *key, const union block *intermediate, unsigned i)
{
    const uint64_t *k = key->word, c = UINT64_C(0x0001000100010001) << i;
    union block mask = {{c, c, c, c}}, x = {{k[i % 4], k[(i + 1) % 4], k[(i + 2) % 4], k[(i + 3) % 4]}}, y;

    add(&mask, intermediate);
    add(&x, &mask);
    round_and_xor(&y, &x, &mask);
    round_and_sum(even, &y, &mask);
}

/* The round key after an even one: its bytes from byte 11 on, then the first eleven. */
INLINE void odd_key(union block *odd, const union block *even)
{
    const uint64_t *w = even->word;

    put_words(odd, w[1] >> 24 | w[2] << 40, w[2] >> 24 | w[3] << 40, w[3] >> 24 | w[0] << 40, w[0] >> 24 | w[1] << 40);
}

/* The fifteen round keys. */
INLINE void round_keys(union block keys[KEYS], const union block *key)
{
    union block intermediate;

    intermediate_key(&intermediate, key);
#pragma GCC unroll 8
    for (unsigned i = 0; i < 8; i++) {
        even_key(&keys[2 * i], key, &intermediate, i);
        if (i < 7)
            odd_key(&keys[2 * i + 1], &keys[2 * i]);
    }
}

uint64_t kalyna_tuned_in_c_encipher(const uint8_t *key, size_t key_len, const uint8_t *source, size_t source_len, uint8_t *target,
                                    size_t target_len)
{
    union block k, keys[KEYS], x, y;

    if (key_len != BYTES || source_len != BYTES || target_len != BYTES)
        return STRUMOK_REFUSED_BLOCK_LENGTH;
    memcpy(k.byte, key, BYTES);
    round_keys(keys, &k);
    memcpy(x.byte, source, BYTES);
    add(&x, &keys[0]);
#pragma GCC unroll 6
    for (unsigned i = 1; i < 13; i += 2) {
        round_and_xor(&y, &x, &keys[i]);
        round_and_xor(&x, &y, &keys[i + 1]);
    }
    round_and_xor(&y, &x, &keys[13]);
    round_and_sum(&x, &y, &keys[14]);
    memcpy(target, x.byte, BYTES);
    return STRUMOK_ACCEPTED;
}

uint64_t kalyna_tuned_in_c_decipher(const uint8_t *key, size_t key_len, const uint8_t *source, size_t source_len, uint8_t *target,
                                    size_t target_len)
{
    union block k, keys[KEYS], x, y;

    if (key_len != BYTES || source_len != BYTES || target_len != BYTES)
        return STRUMOK_REFUSED_BLOCK_LENGTH;
    memcpy(k.byte, key, BYTES);
    round_keys(keys, &k);
    memcpy(y.byte, source, BYTES);
    subtract(&y, &keys[14]);
    unmix(&x, &y);
#pragma GCC unroll 6
    for (unsigned i = 13; i > 1; i -= 2) {
        round_back(&y, &x, &keys[i]);
        round_back(&x, &y, &keys[i - 1]);
    }
    round_back(&y, &x, &keys[1]);
    unshift(&x, &y);
    subtract(&x, &keys[0]);
    memcpy(target, x.byte, BYTES);
    return STRUMOK_ACCEPTED;
}
