/*
 * The stream cipher Strumok in C, with which the benchmark compares the proved library. The calls, their states and their numbers are those
 * of include/strumok.h; what that header asks of a caller is asked here too, but a portion may have its source as its target. Before any of
 * them the tables are filled, once.
 */
#ifndef STRUMOK_IN_C_H
#define STRUMOK_IN_C_H

#include "strumok.h"

/* Fills the tables by the rules of the fields, from the file with the four pi tables. Returns 0, or 1 where that file cannot be read. */
int strumok_in_c_fill_tables(const char *pi_file);

uint64_t strumok_in_c_open(const uint8_t *key, size_t key_len, const uint8_t *iv, size_t iv_len, uint64_t state[STRUMOK_STATE_WORDS]);
uint64_t strumok_in_c_apply(uint64_t state[STRUMOK_STATE_WORDS], const uint8_t *source, size_t source_len, uint8_t *target,
                            size_t target_len);
uint64_t strumok_in_c_move(uint64_t state[STRUMOK_STATE_WORDS], int64_t distance);
uint64_t strumok_in_c_check(const uint64_t state[STRUMOK_STATE_WORDS], const uint8_t *iv, size_t iv_len, uint8_t *key, size_t key_len);

#endif
