/*
 * The window call of Strumok (DSTU 8845:2019) over a state that is lent, for firmware: the function that
 * target/staticlib/libstrumok_mut.a defines, which `tools/staticlib strumok_mut` proves and builds for x86-64.
 */
#ifndef STRUMOK_MUT_H
#define STRUMOK_MUT_H

#include <stddef.h>
#include <stdint.h>

#if SIZE_MAX != UINT64_MAX
#error "strumok_mut.h: the library is for x86-64, where size_t has 64 bits"
#endif

/* For the compiler to warn: of a result that is ignored, and of a null argument. The same in strumok.h, strumok_mut.h and orders.h. */
#ifndef STRUMOK_MUST_USE
#if (defined __cplusplus && __cplusplus >= 201703L) || (defined __STDC_VERSION__ && __STDC_VERSION__ >= 202311L)
#define STRUMOK_MUST_USE [[nodiscard]]
#elif defined __GNUC__
#define STRUMOK_MUST_USE __attribute__((warn_unused_result))
#else
#define STRUMOK_MUST_USE
#endif
#ifdef __GNUC__
#define STRUMOK_NONNULL __attribute__((nonnull))
#else
#define STRUMOK_NONNULL
#endif
#endif

#ifdef __cplusplus
extern "C" {
#endif

/* A state: twenty 64-bit words, in this order. */
struct strumok_state {
    uint64_t cells[16]; /* s0 .. s15 */
    uint64_t r1;
    uint64_t r2;
    uint64_t size;     /* the size mark, 256 or 512 */
    uint64_t position; /* the byte position, 0 to 16777216 */
};

/*
 * Applies the keystream to the count bytes of the buffer from start on, in place, and leaves the state count bytes further on.
 * Enciphering and deciphering are the same call. The other bytes of the buffer keep their values; count may be 0.
 *
 * Returns 0 where the call is accepted, and else the lowest number that applies, with state and buffer as they were:
 *
 *     3   the size mark is neither 256 nor 512
 *     4   the position is above 16777216
 *     6   start + count, as whole numbers, is above buffer_len
 *     7   the position plus count is above 16777216
 *
 * All that is proved rests on what C does not check:
 *   - state points to a struct strumok_state that is aligned as a uint64_t is;
 *   - buffer is not null, also where buffer_len is 0, and has buffer_len bytes;
 *   - state and buffer do not overlap, and nothing else touches them during the call.
 *
 * Where the call is refused nothing is enciphered or deciphered, so its result may not be ignored. Compilers that can do so warn of one
 * that is ignored, and of an argument that is plainly null.
 *
 * Threads: the call keeps nothing from one call to the next, and has no data of its own that is written. Calls over different states and
 * buffers may run at the same time.
 *
 * The call takes some 2 KiB of stack (measured). Secrecy of timing is not claimed: tables are indexed by
 * bytes that are secret.
 */
STRUMOK_MUST_USE STRUMOK_NONNULL
uint64_t strumok_window_mut(struct strumok_state *state, uint8_t *buffer, size_t buffer_len, size_t start, size_t count);

#ifdef __cplusplus
}
#endif

#endif
