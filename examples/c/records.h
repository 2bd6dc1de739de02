/* Small helpers around the library, to be copied into a program: a reading's record, and what a table shows. */
#ifndef RECORDS_H
#define RECORDS_H

#include "givuntha.h"

#include <string.h>

/* Puts a number into a record, little-endian. */
static inline void put_number(uint8_t *to, uint32_t number, size_t bytes)
{
    for (; bytes > 0; bytes--, number >>= 8)
        *to++ = (uint8_t)(number & 255);
}

/* Makes the record of a reading with at most GIVUNTHA_READING_VALUES values, and answers its length. */
static inline size_t put_reading(uint8_t record[GIVUNTHA_READING_BYTES], uint32_t time, uint8_t type,
                                 const int32_t *values, size_t count)
{
    size_t n, length = 9 + 4 * count;

    put_number(record, (uint32_t)length, 2);
    put_number(record + 2, GIVUNTHA_READING_KIND, 2);
    put_number(record + 4, time, 4);
    record[8] = type;
    for (n = 0; n < count; n++)
        put_number(record + 9 + 4 * n, (uint32_t)values[n], 4);
    return length;
}

/* A table with nothing in it, for givuntha_start. */
static inline void clear_table(int64_t table[GIVUNTHA_TABLE_CELLS])
{
    memset(table, 0, GIVUNTHA_TABLE_CELLS * sizeof table[0]);
}

/* The cells of unit n of a table, counted from 0. */
static inline const int64_t *unit_of(const int64_t table[GIVUNTHA_TABLE_CELLS], size_t n)
{
    return table + GIVUNTHA_HEAD_CELLS + GIVUNTHA_UNIT_CELLS * n;
}

#endif
