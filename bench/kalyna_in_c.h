/*
 * The block cipher of DSTU 7624:2014 (Kalyna), block and key of 256 bits, in C, with which the benchmark compares the proved library: by
 * the same tables as that library (kalyna_in_c.c), and tuned by hand (kalyna_tuned_in_c.c). The calls and their number are those of
 * include/strumok.h; what that header asks of a caller is asked here too. Before any of them the tables of each are filled, once.
 */
#ifndef KALYNA_IN_C_H
#define KALYNA_IN_C_H

#include "strumok.h"

/* Each fills its tables by their rules, from the file with the four pi tables. Returns 0, or 1 where that file cannot be read. */
int kalyna_in_c_fill_tables(const char *pi_file);
int kalyna_tuned_in_c_fill_tables(const char *pi_file);

uint64_t kalyna_in_c_encipher(const uint8_t *key, size_t key_len, const uint8_t *source, size_t source_len, uint8_t *target,
                              size_t target_len);
uint64_t kalyna_in_c_decipher(const uint8_t *key, size_t key_len, const uint8_t *source, size_t source_len, uint8_t *target,
                              size_t target_len);

uint64_t kalyna_tuned_in_c_encipher(const uint8_t *key, size_t key_len, const uint8_t *source, size_t source_len, uint8_t *target,
                                    size_t target_len);
uint64_t kalyna_tuned_in_c_decipher(const uint8_t *key, size_t key_len, const uint8_t *source, size_t source_len, uint8_t *target,
                                    size_t target_len);

#endif
