/*
 * A reader of order files in C, with which the benchmark compares the proved one. Its answer is that of orders_read in include/orders.h.
 */
#ifndef CSV_IN_C_H
#define CSV_IN_C_H

#include <stddef.h>
#include <stdint.h>

uint64_t csv_in_c_read(const uint8_t *text, size_t text_len, uint64_t answer[2]);

#endif
