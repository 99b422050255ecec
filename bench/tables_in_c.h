/*
 * From what the ciphers in C fill their tables: products of bytes, the columns of M and of its inverse, and the file of the pi tables.
 */
#ifndef TABLES_IN_C_H
#define TABLES_IN_C_H

#include <stdint.h>
#include <stdio.h>

/* Row 0 of M and of its inverse: the first byte is the most significant. */
#define ROW_OF_M UINT64_C(0x0101050108060704)
#define ROW_OF_M_INVERSE UINT64_C(0xAD9576A82F49D7CA)

/* The product of two bytes modulo y^8+y^4+y^3+y^2+1. */
static inline uint8_t product(uint8_t a, uint8_t b)
{
    unsigned sum = 0;

    for (int bit = 7; bit >= 0; bit--) {
        sum = sum << 1 ^ (sum >> 7) * 0x11D;
        if (b >> bit & 1)
            sum ^= a;
    }
    return (uint8_t)sum;
}

/* Each byte of the row times c. */
static inline uint64_t row_times(uint64_t row, uint8_t c)
{
    uint64_t word = 0;

    for (unsigned j = 0; j < 8; j++)
        word |= (uint64_t)product((uint8_t)(row >> 8 * j), c) << 8 * j;
    return word;
}

/* Column j of the matrix that has this row 0, each row being the one before rotated right: its bytes are the row's, rotated. */
static inline uint64_t column(uint64_t row, unsigned j)
{
    const unsigned bits = 8 * (j + 1) % 64;

    return bits == 0 ? row : row << bits | row >> (64 - bits);
}

/* Reads the four pi tables. Returns 0, or 1 where the file cannot be read. */
static inline int read_pi(const char *name, uint8_t pi[4][256])
{
    FILE *file = fopen(name, "r");
    unsigned entry, count = 0;

    if (file == NULL)
        return 1;
    if (fscanf(file, "#%*[^\n]") != EOF) {
        while (count < 4 * 256 && fscanf(file, "%2x", &entry) == 1) {
            pi[count / 256][count % 256] = (uint8_t)entry;
            count++;
        }
    }
    fclose(file);
    return count != 4 * 256;
}

#endif
