/*
 * Follows an agreement through its readings, as brinewatch does, but with the readings as text:
 *
 *     watch [AGREEMENT] < READINGS
 *
 * AGREEMENT is a file that holds an agreement's bytes. Without it the agreement is the sample: from minute 100 on,
 * party 0 owes a salinity (reading type 1) not below 250 within 60 minutes.
 *
 * Each line of standard input is a reading: TIME TYPE VALUE.. in decimal. A line is written for the start and for each
 * reading: its number, its time, and LIVE, DONE, BREACH or REFUSED. LIVE and BREACH are followed by the time of the
 * breach, ahead or come, and its parties by bit, or by NONE; REFUSED by the number of the refusal. A line that begins
 * with ? asks what its reading would do: the same is written with ? for the number, and the run goes on as if nobody
 * had asked. Standard error tells what each reading cost, and of one that came too early: a window that wants it opens
 * later, and until then it does not count. At the end it tells when the agreement last moved, which an idle reading
 * does not alter, and which clauses still wait.
 *
 * The status is 0 where the readings were followed to their end, 1 where the agreement was refused, and 2 where a file
 * or a line could not be read.
 */
#include "givuntha.h"
#include "records.h"

#include <ctype.h>
#include <errno.h>
#include <inttypes.h>
#include <stdio.h>
#include <stdlib.h>
#include <string.h>

static const uint8_t sample[64] = {
    64, 0, 1, 0, 100, 0, 0, 0, 2, 1, 0,         /* agreement from 100 on: 2 parties, 1 reading type, no template */
    6, 0, 2, 0, 1, 1,                           /* reading type 1: a number */
    47, 0, 17, 0, 0, 1,                         /* obligation: party 0, reading type 1 */
    21, 0, 36, 0, 17, 0, 42, 0, 5, 0, 35, 0, 0, /* where not (value 0 less than.. */
    8, 0, 32, 0, 250, 0, 0, 0,                  /* ..250) */
    8, 0, 32, 0, 0, 0, 0, 0,                    /* after 0 */
    8, 0, 32, 0, 60, 0, 0, 0,                   /* within 60 */
    4, 0, 16, 0                                 /* then fulfilled */
};

/* A run: the agreement, and the table that the library keeps the run's state in. */
struct run {
    const uint8_t *agreement;
    size_t bytes;
    int64_t table[GIVUNTHA_TABLE_CELLS];
};

/* The forecast of the table that a call leaves: a breach that is ahead or has come; none where parties is 0. */
struct forecast {
    uint64_t time, parties;
};

/* The word for a table's state, and the breach that came or is ahead. */
static void print_state(const int64_t table[GIVUNTHA_TABLE_CELLS], const struct forecast *ahead)
{
    if (table[GIVUNTHA_HEAD_STATE] == GIVUNTHA_FULFILLED) {
        puts("DONE");
        return;
    }
    fputs(table[GIVUNTHA_HEAD_STATE] == GIVUNTHA_BREACHED ? "BREACH" : "LIVE", stdout);
    if (ahead->parties == 0)
        puts(" NONE");
    else
        printf(" %" PRIu64 " %" PRIu64 "\n", ahead->time, ahead->parties);
}

/* Starts the run and writes its line. */
static int start(struct run *run)
{
    struct forecast ahead;
    uint32_t answer;

    clear_table(run->table);
    answer = givuntha_start(run->agreement, run->bytes, run->table, GIVUNTHA_TABLE_CELLS, &ahead.time, &ahead.parties);
    if (answer != GIVUNTHA_ACCEPTED) {
        printf("0 - REFUSED %" PRIu32 "\n", answer);
        fprintf(stderr, "watch: %s\n", givuntha_words(answer));
        return 0;
    }
    printf("0 %" PRId64 " ", run->table[GIVUNTHA_HEAD_LAST_READING]);
    print_state(run->table, &ahead);
    return 1;
}

/* Whether nothing but space is left of a line. */
static int is_spent(const char *line)
{
    return line[strspn(line, " \t\r\n")] == '\0';
}

/* Takes the next number of a line, if there is one from low to high. */
static int take(char **line, long long low, long long high, long long *number)
{
    char *end;

    errno = 0;
    *number = strtoll(*line, &end, 10);
    if (end == *line || errno != 0 || *number < low || *number > high)
        return 0;
    *line = end;
    return *end == '\0' || isspace((unsigned char)*end);
}

/* Whether a line was longer than there was room for. */
static int is_cut(const char *line)
{
    return strchr(line, '\n') == NULL && !feof(stdin);
}

/* Makes the record of the reading in a line; answers its length, or 0 where the line is no reading. */
static size_t make_reading(char *line, uint8_t record[GIVUNTHA_READING_BYTES], long long *time)
{
    long long type, value;
    int32_t values[GIVUNTHA_READING_VALUES];
    size_t count = 0;

    if (is_cut(line) || !take(&line, 0, UINT32_MAX, time) || !take(&line, 0, UINT8_MAX, &type))
        return 0;
    while (!is_spent(line)) {
        if (count == GIVUNTHA_READING_VALUES || !take(&line, INT32_MIN, INT32_MAX, &value))
            return 0;
        values[count++] = (int32_t)value;
    }
    return put_reading(record, (uint32_t)*time, (uint8_t)type, values, count);
}

/* The end of a reading's line: the state of the table after it, or the refusal. */
static void print_answer(uint32_t answer, const int64_t table[GIVUNTHA_TABLE_CELLS], const struct forecast *ahead)
{
    if (answer == GIVUNTHA_ACCEPTED)
        print_state(table, ahead);
    else
        printf("REFUSED %" PRIu32 "\n", answer);
}

/* Gives the run the reading in a line, and writes its line. */
static int follow(struct run *run, unsigned long n, char *line)
{
    uint8_t record[GIVUNTHA_READING_BYTES];
    long long time;
    size_t length = make_reading(line, record, &time);
    struct forecast ahead;
    uint32_t answer;
    uint64_t early, cost;

    if (length == 0)
        return 0;
    answer = givuntha_reading(run->agreement, run->bytes, run->table, GIVUNTHA_TABLE_CELLS, record, length, &ahead.time,
                              &ahead.parties, &early, &cost);
    fprintf(stderr, "watch: reading %lu cost %" PRIu64 "\n", n, cost);
    if (early != 0)
        fprintf(stderr, "watch: reading %lu came too early: a window that wants it opens later\n", n);
    printf("%lu %lld ", n, time);
    print_answer(answer, run->table, &ahead);
    return 1;
}

/* Writes what the reading in a line would do. The run's table is only read; the table that it would have is another. */
static int preview(const struct run *run, char *line)
{
    static int64_t after[GIVUNTHA_TABLE_CELLS];
    uint8_t record[GIVUNTHA_READING_BYTES];
    long long time;
    size_t length = make_reading(line, record, &time);
    struct forecast ahead;
    uint32_t answer;
    uint64_t early, cost;

    if (length == 0)
        return 0;
    answer = givuntha_preview(run->agreement, run->bytes, run->table, GIVUNTHA_TABLE_CELLS, record, length, after,
                              GIVUNTHA_TABLE_CELLS, &ahead.time, &ahead.parties, &early, &cost);
    fprintf(stderr, "watch: that would cost %" PRIu64 "%s\n", cost, early != 0 ? " and be too early" : "");
    printf("? %lld ", time);
    print_answer(answer, after, &ahead);
    return 1;
}

/* When the agreement last moved, and the places in its bytes of the clauses that still wait, on standard error. */
static void print_end(const struct run *run)
{
    size_t n, units = (size_t)run->table[GIVUNTHA_HEAD_UNITS];

    fprintf(stderr, "watch: last moved at %" PRId64 "\n", run->table[GIVUNTHA_HEAD_LAST_MOVED]);
    for (n = 0; n < units; n++)
        if (unit_of(run->table, n)[GIVUNTHA_UNIT_SORT] < 20)
            fprintf(stderr, "watch: waiting: the clause at byte %" PRId64 "\n",
                    unit_of(run->table, n)[GIVUNTHA_UNIT_PLACE]);
}

/* Reads an agreement from a file, with one byte more than any has: of a longer file that is enough to be refused. */
static int load(struct run *run, const char *name)
{
    static uint8_t bytes[GIVUNTHA_AGREEMENT_BYTES + 1];
    FILE *file = fopen(name, "rb");
    int good;

    if (file == NULL) {
        perror(name);
        return 0;
    }
    run->agreement = bytes;
    run->bytes = fread(bytes, 1, sizeof bytes, file);
    good = !ferror(file);
    if (!good)
        perror(name);
    fclose(file);
    return good;
}

int main(int count, char **words)
{
    static struct run run = {sample, sizeof sample, {0}};
    char line[256];
    unsigned long lines, readings = 0;

    if (count > 1 && !load(&run, words[1]))
        return 2;
    if (!start(&run))
        return 1;
    for (lines = 1; fgets(line, sizeof line, stdin) != NULL; lines++)
        if (!(line[0] == '?' ? preview(&run, line + 1) : follow(&run, ++readings, line))) {
            fprintf(stderr, "watch: line %lu is not TIME TYPE VALUE.. with at most 4 values\n", lines);
            return 2;
        }
    print_end(&run);
    return ferror(stdin) ? 2 : 0;
}
