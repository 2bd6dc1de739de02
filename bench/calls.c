/*
 * The calls that bench/calls counts, each in a function of its own: the check of a stream's agreement, its start, its
 * last reading, after all readings before it, and the preview of that reading on the same table. Prints what the last
 * one answered.
 *     calls STREAM
 */
#include "givuntha.h"

#include <stdio.h>

static uint8_t bytes[1 << 20];
static int64_t table[GIVUNTHA_TABLE_CELLS], second[GIVUNTHA_TABLE_CELLS];
static uint64_t time, parties, early, cost;
static uint32_t number;

/* Where the record at a place ends: as its length says, and not beyond the bytes. */
static size_t record_end(size_t at, size_t size)
{
    size_t length = at + 1 < size ? (size_t)bytes[at] | (size_t)bytes[at + 1] << 8 : 0;
    return length < 2 || length > size - at ? size : at + length;
}

static void start(size_t agreement)
{
    number = givuntha_start(bytes, agreement, table, GIVUNTHA_TABLE_CELLS, &time, &parties);
}

static void reading(size_t agreement, size_t from, size_t to)
{
    number = givuntha_reading(bytes, agreement, table, GIVUNTHA_TABLE_CELLS, bytes + from, to - from, &time, &parties,
                              &early, &cost);
}

__attribute__((noinline)) void counted_check(size_t agreement)
{
    number = givuntha_check(bytes, agreement, &parties);
}

__attribute__((noinline)) void counted_start(size_t agreement)
{
    start(agreement);
}

__attribute__((noinline)) void counted_reading(size_t agreement, size_t from, size_t to)
{
    reading(agreement, from, to);
}

__attribute__((noinline)) void counted_preview(size_t agreement, size_t from, size_t to)
{
    number = givuntha_preview(bytes, agreement, table, GIVUNTHA_TABLE_CELLS, bytes + from, to - from, second,
                              GIVUNTHA_TABLE_CELLS, &time, &parties, &early, &cost);
}

int main(int count, char **arguments)
{
    FILE *stream = count == 2 ? fopen(arguments[1], "rb") : NULL;
    if (stream == NULL) {
        fprintf(stderr, "usage: calls STREAM\n");
        return 2;
    }
    size_t size = fread(bytes, 1, sizeof bytes, stream);
    size_t agreement = record_end(0, size), from = agreement, to;
    counted_check(agreement);
    counted_start(agreement);
    while ((to = record_end(from, size)) < size) {
        reading(agreement, from, to);
        from = to;
    }
    counted_preview(agreement, from, to);
    counted_reading(agreement, from, to);
    printf("%u, forecast %llu %llu, cost %llu, %lld units", (unsigned)number, (unsigned long long)time,
           (unsigned long long)parties, (unsigned long long)cost, (long long)table[GIVUNTHA_HEAD_UNITS]);
    return 0;
}
