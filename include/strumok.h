/*
 * The stream cipher Strumok (DSTU 8845:2019), and the block cipher of DSTU 7624:2014 (Kalyna) with block and key of 256 bits, for C: the
 * functions that target/staticlib/libstrumok_c.a defines, which `tools/staticlib strumok_c` proves and builds for x86-64.
 *
 * strumok_open makes a state from a key and an IV, at position 0. strumok_apply and strumok_window apply the keystream from the state's
 * position on, in portions of any length, and leave the state behind the last byte; enciphering and deciphering are the same call.
 * strumok_move goes to another byte, either way. strumok_check tells whether a stored state belongs to an IV, and hands back its key.
 * strumok_block_encipher and strumok_block_decipher are the block cipher, under which keys are wrapped; they take no state.
 *
 * Every call but strumok_tables returns STRUMOK_ACCEPTED or the number of a refusal: the lowest that applies of those listed with the call,
 * which are tested in that order. A refused opening writes the blank state, twenty zeros; any other refusal leaves the state and all buffers as they were.
 * Lengths, distances and states need not be looked at beforehand: each value has its answer.
 *
 * All that is proved rests on what C does not check:
 *   - a state is twenty words, and tables are 2,560, aligned as a uint64_t is;
 *   - no pointer is null, also where its length is 0, and each buffer has the bytes that its length says;
 *   - the state, the tables and the buffers of one call do not overlap (to work in place there is strumok_window);
 *   - nothing else touches them during the call.
 *
 * Where a call is refused nothing is enciphered or deciphered, so no result may be ignored. Compilers that can do so warn of one that is
 * ignored, and of an argument that is plainly null.
 *
 * Threads: the calls keep nothing from one call to the next, and have no data of their own that is written. Calls over different states
 * and buffers may run at the same time. A state, and a buffer that is written, is in one call at a time; what is only read may be shared:
 * tables, keys, IVs, sources, the state of a check.
 *
 * A state is as secret as its key: strumok_check turns the one into the other. So is a key target, and the target of a deciphered key.
 * Secrecy of timing is not claimed: tables are indexed by bytes that are secret. No call wipes what it leaves on the stack.
 *
 * Stack, measured on x86-64: at most 5 KiB for a call, 2 KiB for the two calls with tables that the caller holds.
 */
#ifndef STRUMOK_H
#define STRUMOK_H

#include <stddef.h>
#include <stdint.h>

#if SIZE_MAX != UINT64_MAX
#error "strumok.h: the library is for x86-64, where size_t has 64 bits"
#endif

/* For the compiler to warn: of a result that is ignored, and of a null argument. The same in strumok.h, strumok_mut.h and orders.h. */
#ifndef STRUMOK_MUST_USE
#if (defined __cplusplus && __cplusplus >= 201703L) || (defined __STDC_VERSION__ && __STDC_VERSION__ >= 202311L)
#define STRUMOK_MUST_USE [[nodiscard]]
#elif defined __GNUC__
#define STRUMOK_MUST_USE __attribute__((warn_unused_result))
#else
#define STRUMOK_MUST_USE
#endif
#ifdef __GNUC__
#define STRUMOK_NONNULL __attribute__((nonnull))
#else
#define STRUMOK_NONNULL
#endif
#endif

#ifdef __cplusplus
extern "C" {
#endif

/* A state is twenty words: the cells s0 .. s15 are words 0 to 15, and these follow. */
#define STRUMOK_STATE_WORDS 20
#define STRUMOK_R1 16
#define STRUMOK_R2 17
#define STRUMOK_SIZE_MARK 18 /* 256 or 512, the bits of the key */
#define STRUMOK_POSITION 19  /* the byte position, 0 to STRUMOK_LIMIT */

/* The last position. */
#define STRUMOK_LIMIT 16777216

/* What a call returns; 11 to 13 are numbers of orders.h. */
enum {
    STRUMOK_ACCEPTED = 0,
    STRUMOK_REFUSED_KEY_LENGTH = 1,         /* the key length is neither 32 nor 64 */
    STRUMOK_REFUSED_IV_LENGTH = 2,          /* the IV length is not 32 */
    STRUMOK_REFUSED_SIZE_MARK = 3,          /* the size mark is neither 256 nor 512 */
    STRUMOK_REFUSED_POSITION_ABOVE = 4,     /* the position is above 16777216 */
    STRUMOK_REFUSED_TARGET_SHORTER = 5,     /* the target is shorter than the source */
    STRUMOK_REFUSED_WINDOW_PAST_END = 6,    /* start + count, as whole numbers, is above the buffer length */
    STRUMOK_REFUSED_NEW_POSITION_ABOVE = 7, /* the new position would be above 16777216 */
    STRUMOK_REFUSED_NEW_POSITION_BELOW = 8, /* the new position would be below 0 */
    STRUMOK_REFUSED_KEY_TARGET_LENGTH = 9,  /* the length of the key target is not an eighth of the size mark */
    STRUMOK_REFUSED_NO_KEY_LEADS = 10,      /* no key of that size that opening accepts leads, with that IV, to this state */
    STRUMOK_REFUSED_ZERO_KEY = 14,          /* the bytes of the key are all zero */
    STRUMOK_REFUSED_BLOCK_LENGTH = 15       /* the length of the key, the source or the target of the block cipher is not 32 */
};

/*
 * Opens a state, at position 0, from a key of 32 or 64 bytes, which are not all zero, and an IV of 32, which may be. Both stand with their
 * highest word first, each word most significant byte first. All twenty words of the state are written, whatever they held.
 *
 * Refusals, with the blank state: 1, 2, 14. Every call that takes a state refuses the blank one.
 */
STRUMOK_MUST_USE STRUMOK_NONNULL
uint64_t strumok_open(const uint8_t *key, size_t key_len, const uint8_t *iv, size_t iv_len, uint64_t state[STRUMOK_STATE_WORDS]);

/*
 * Writes the source bytes, each xor its keystream byte, to the front of the target, and leaves the state source_len bytes further on.
 * Later bytes of the target keep their values. source_len may be 0.
 *
 * Refusals, with state and target as they were: 3, 4, 5, 7.
 */
STRUMOK_MUST_USE STRUMOK_NONNULL
uint64_t strumok_apply(uint64_t state[STRUMOK_STATE_WORDS], const uint8_t *source, size_t source_len, uint8_t *target, size_t target_len);

/*
 * Applies the keystream in place to the count bytes of the buffer from start on, and leaves the state count bytes further on. The other
 * bytes of the buffer keep their values. count may be 0.
 *
 * Refusals, with state and buffer as they were: 3, 4, 6, 7.
 */
STRUMOK_MUST_USE STRUMOK_NONNULL
uint64_t strumok_window(uint64_t state[STRUMOK_STATE_WORDS], uint8_t *buffer, size_t buffer_len, size_t start, size_t count);

/*
 * Moves the state by a distance in bytes, towards the start where that is negative. The new position may be 0 or 16777216. It walks word by
 * word, so its time grows with the distance.
 *
 * Refusals, with the state as it was: 3, 4, 7, 8.
 */
STRUMOK_MUST_USE STRUMOK_NONNULL
uint64_t strumok_move(uint64_t state[STRUMOK_STATE_WORDS], int64_t distance);

/*
 * Checks a stored state against an IV: it is accepted exactly when some key of its size that strumok_open accepts, opened with that IV,
 * leads to that very state. There is then only one such key, and its bytes are written to key, 32 bytes for size mark 256 and 64 for 512. A
 * state that only the key of zeros could lead to is refused with 10. The state is only read. The call walks back to the start, so its time
 * grows with the position.
 *
 * Refusals, with the key target as it was: 2, 3, 4, 9, 10.
 */
STRUMOK_MUST_USE STRUMOK_NONNULL
uint64_t strumok_check(const uint64_t state[STRUMOK_STATE_WORDS], const uint8_t *iv, size_t iv_len, uint8_t *key, size_t key_len);

/*
 * Portions with tables that the caller holds. The calls above go by tables that stand in the library as constants. A caller who wants them
 * elsewhere in memory fills 2,560 words once, with strumok_tables, and lends them to the two calls below; they are only read,
 * may be shared by any number of states, and may stand in read-only memory. With these words the calls are strumok_apply and
 * strumok_window, with the same refusals. With other words in them, nothing worse happens than a keystream that is not Strumok's.
 */
#define STRUMOK_TABLES_WORDS 2560

STRUMOK_NONNULL
void strumok_tables(uint64_t tables[STRUMOK_TABLES_WORDS]);

STRUMOK_MUST_USE STRUMOK_NONNULL
uint64_t strumok_apply_with(uint64_t state[STRUMOK_STATE_WORDS], const uint64_t tables[STRUMOK_TABLES_WORDS], const uint8_t *source,
                            size_t source_len, uint8_t *target, size_t target_len);

STRUMOK_MUST_USE STRUMOK_NONNULL
uint64_t strumok_window_with(uint64_t state[STRUMOK_STATE_WORDS], const uint64_t tables[STRUMOK_TABLES_WORDS], uint8_t *buffer,
                             size_t buffer_len, size_t start, size_t count);

/*
 * The block cipher of DSTU 7624:2014 with block and key of 256 bits, by which keys of entries are wrapped under a master key. Its bytes
 * stand as that standard has them: the first eight are word 0, least significant byte first. A key of zeros is accepted here.
 *
 * An entry key of 64 bytes is wrapped in two calls, each half enciphered by itself, and unwrapped in two:
 *   - equal halves show: two equal halves give, under one master key, two equal enciphered halves, and equal keys give equal wrapped keys;
 *   - nothing is authenticated: a changed wrapped key deciphers to another key without any refusal, whether bytes of it were altered, its
 *     halves exchanged or a half of another one put in; and with another master key some key is deciphered too.
 */
#define STRUMOK_BLOCK_BYTES 32

/*
 * Enciphers the block of 32 bytes in the source, with a key of 32, to a target of 32.
 *
 * Refusals, with the target as it was: 15. It is the only test.
 */
STRUMOK_MUST_USE STRUMOK_NONNULL
uint64_t strumok_block_encipher(const uint8_t *key, size_t key_len, const uint8_t *source, size_t source_len, uint8_t *target,
                                size_t target_len);

/*
 * Deciphers the block of 32 bytes in the source, with a key of 32, to a target of 32. It undoes strumok_block_encipher with the same key,
 * and strumok_block_encipher undoes it.
 *
 * Refusals, with the target as it was: 15. It is the only test.
 */
STRUMOK_MUST_USE STRUMOK_NONNULL
uint64_t strumok_block_decipher(const uint8_t *key, size_t key_len, const uint8_t *source, size_t source_len, uint8_t *target,
                                size_t target_len);

#ifdef __cplusplus
}
#endif

#endif
