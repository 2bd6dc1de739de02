/*
 * Givuntha: a monitor of timed agreements between parties. C99, and C++ by the guards below.
 *
 * An agreement is bytes; so is a reading. The state of a run is a table of 64-bit cells that the caller lends. Four
 * functions: check an agreement, start it, take a reading, preview one, that is, tell what it would do before it is
 * entered. The last three tell the forecast too, of the table that they write. Times are in minutes. A set of parties
 * is a number in which bit n stands for party n; parties count from 0 and there are at most 16.
 *
 * Answers. Every function answers GIVUNTHA_ACCEPTED (0) or the number of a refusal, the first that applies in the order
 * of enum givuntha_answer: the lowest, but that 15 comes after 5 and before 6. A refusal leaves every table as it was
 * and sets the other results to 0, all but one: the cost of a reading that is refused with GIVUNTHA_UNITS (11), in a
 * preview too. No call relies on an earlier one: whatever bytes and cells are lent, each is judged anew.
 *
 * What the caller owes:
 * - No pointer is null, not even one of length 0: lend any aligned address.
 * - Each run of memory is as long as its length says; lengths are in bytes for bytes, in cells for cells.
 * - Tables and the single results are aligned to 8 bytes.
 * - What is written (the table of a start or a reading, the second of a preview, time, parties, early, cost) overlaps
 *   nothing else that is lent, and during the call nobody else reads or writes it. What is only read (agreement,
 *   reading, the first table of a preview) may be shared, but nobody writes it during the call.
 * - The thread has GIVUNTHA_STACK_BYTES of stack left. Less is enough for most agreements; an overflow meets the
 *   guard page, since each page of stack is touched as it is taken.
 *
 * There is no global state and nothing is allocated or kept: calls on different tables may run in parallel threads, and
 * may share an agreement. A start or a reading writes its table, so any other call on that table comes before or after
 * it. A preview only reads its first table: previews of one table may run beside each other, each with a second of its
 * own.
 */
#ifndef GIVUNTHA_H
#define GIVUNTHA_H

#include <stddef.h>
#include <stdint.h>

#ifdef __cplusplus
extern "C" {
#endif

/* The version of this header; givuntha_version answers that of the library: major, minor, patch. */
#define GIVUNTHA_VERSION_MAJOR 0
#define GIVUNTHA_VERSION_MINOR 1
#define GIVUNTHA_VERSION_PATCH 0
#define GIVUNTHA_VERSION (GIVUNTHA_VERSION_MAJOR * 10000 + GIVUNTHA_VERSION_MINOR * 100 + GIVUNTHA_VERSION_PATCH)
uint32_t givuntha_version(void);

/* The answers, in their order. check gives 0 to 5 and 15; start these, 6 and 11; reading and preview all. */
enum givuntha_answer {
    GIVUNTHA_ACCEPTED = 0,
    /* agreement under 4 or over 16,384 bytes, or not as long as its length says */
    GIVUNTHA_AGREEMENT_LENGTH = 1,
    /* record, count, type byte or nesting (at most 24 deep) not as the format has it, or an instance naming no
     * template; 1 to 16 parties, 1 to 16 reading types, 0 to 32 templates, which are all of kind 3 or all of kind 4,
     * with at most 128 units each */
    GIVUNTHA_AGREEMENT_FORM = 2,
    /* not typed; name, literal, blame or declared party out of range; over 16 values in sight */
    GIVUNTHA_AGREEMENT_TYPING = 3,
    /* unguarded instance of its own or a later template */
    GIVUNTHA_AGREEMENT_GUARDS = 4,
    /* main clause, template body or `then` of width over 256 */
    GIVUNTHA_AGREEMENT_WIDTH = 5,
    /* in a sized agreement: a template's body needs more units than it declares, or the main clause more than
     * GIVUNTHA_TABLE_UNITS */
    GIVUNTHA_AGREEMENT_SIZE = 15,
    /* table not GIVUNTHA_TABLE_CELLS long; of a preview's two, either */
    GIVUNTHA_TABLE_LENGTH = 6,
    /* table breaks its layout or typing, the time it last moved or a waiting unit was activated outside start to last
     * reading time, running without units, or a breach without party, with one that the agreement cannot blame, or
     * with a time outside start to last reading */
    GIVUNTHA_TABLE_CONTENT = 7,
    /* reading not one whole record of kind 64 with 0 to 4 values */
    GIVUNTHA_READING_FORM = 8,
    /* type over the agreement's reading types, wrong count of values, or a value not of its type or out of its
     * range: a number from -1,000,000,000 to 1,000,000,000, a truth 0 or 1, a party below the party count */
    GIVUNTHA_READING_TYPING = 9,
    /* time below the last reading time; equal times are accepted */
    GIVUNTHA_READING_TIME = 10,
    /* what is left to wait for needs over 128 units; a run of a sized agreement never comes to that */
    GIVUNTHA_UNITS = 11
};

/* An answer in words. */
static inline const char *givuntha_words(uint32_t answer)
{
    switch (answer) {
    case GIVUNTHA_ACCEPTED: return "accepted";
    case GIVUNTHA_AGREEMENT_LENGTH: return "the agreement's length is wrong";
    case GIVUNTHA_AGREEMENT_FORM: return "the agreement is not well formed";
    case GIVUNTHA_AGREEMENT_TYPING: return "the agreement is not well typed";
    case GIVUNTHA_AGREEMENT_GUARDS: return "a template names itself or a later one unguarded";
    case GIVUNTHA_AGREEMENT_WIDTH: return "a clause of the agreement is too wide";
    case GIVUNTHA_AGREEMENT_SIZE: return "the sized agreement needs more units than it declares, or more than 128";
    case GIVUNTHA_TABLE_LENGTH: return "the table's length is wrong";
    case GIVUNTHA_TABLE_CONTENT: return "the table is damaged, or not of this agreement";
    case GIVUNTHA_READING_FORM: return "the reading is not well formed";
    case GIVUNTHA_READING_TYPING: return "the reading's type or values are not the agreement's";
    case GIVUNTHA_READING_TIME: return "the reading is earlier than the last one";
    case GIVUNTHA_UNITS: return "what is left to wait for needs over 128 units";
    default: return "an answer that this header does not know";
    }
}

/* The longest agreement. */
#define GIVUNTHA_AGREEMENT_BYTES 16384

/*
 * An agreement is sized if it has a template and all its templates are of kind 4, which declare the units that an
 * instance needs. Where such an agreement is accepted, its start is never refused with GIVUNTHA_UNITS, nor is a reading
 * or preview of a table that came from its start; of a table that came from elsewhere this is not said. No answer tells
 * whether an agreement is sized: the kind of its first template does.
 */

/*
 * A reading is one record, integers little-endian: its length in bytes (2 bytes), kind 64 (2), time (4, unsigned),
 * type (1), then 0 to 4 values (4 each, signed). Types count from 1 in the agreement's order. Type 0 is a time mark:
 * it has no values, and only lets time go on.
 */
#define GIVUNTHA_READING_KIND 64
#define GIVUNTHA_READING_VALUES 4
/* The longest reading; one without values is 9 bytes. */
#define GIVUNTHA_READING_BYTES 25

/*
 * The table: a head of 8 cells, then at most 128 units of 24 cells. Cells that are not in use are zero. A caller may
 * store it, copy it and lend it again; it needs no other state but the agreement's bytes.
 */
#define GIVUNTHA_TABLE_CELLS 3080
#define GIVUNTHA_HEAD_CELLS 8
#define GIVUNTHA_UNIT_CELLS 24
#define GIVUNTHA_TABLE_UNITS 128

/* The head's cells; cells 6 and 7 are zero. */
enum givuntha_head {
    GIVUNTHA_HEAD_STATE = 0,
    GIVUNTHA_HEAD_LAST_READING = 1, /* time of the last reading; at first the agreement's start */
    GIVUNTHA_HEAD_BREACH_TIME = 2,  /* zero unless breached */
    GIVUNTHA_HEAD_BLAMED = 3,       /* parties by bit; zero unless breached */
    GIVUNTHA_HEAD_UNITS = 4,        /* units in use; zero unless running */
    /* time of the last reading that altered a unit or the state, that is, after which a unit's cell or cell 0 held
     * another number; at first the agreement's start */
    GIVUNTHA_HEAD_LAST_MOVED = 5
};

/* What stands in GIVUNTHA_HEAD_STATE. */
enum givuntha_state { GIVUNTHA_RUNNING = 1, GIVUNTHA_FULFILLED = 2, GIVUNTHA_BREACHED = 3 };

/*
 * A unit's cells. Sort 17 is an obligation and 18 a choice, waiting; 20 is an `and` and 21 an `or`, followed by all
 * units of the left side and then of the right, with its other cells zero. Cell 7 is zero.
 */
enum givuntha_unit {
    GIVUNTHA_UNIT_SORT = 0,
    GIVUNTHA_UNIT_PLACE = 1,      /* byte of the agreement at which its clause begins */
    GIVUNTHA_UNIT_ACTIVATED = 2,  /* time from which its window is counted */
    GIVUNTHA_UNIT_PARAMETERS = 3, /* to 6: party parameters */
    GIVUNTHA_UNIT_VALUES = 8      /* to 23: values in sight */
};

/*
 * Stack for a call on x86-64. bench/stack derives from the compiled code that no call takes more; the deepest that we
 * built, a preview, runs in 357,248 bytes.
 */
#define GIVUNTHA_STACK_BYTES 524288

/* No reading costs more: it is at most 65,792 for each of GIVUNTHA_TABLE_UNITS units. */
#define GIVUNTHA_MOST_COST 8421376

/* Checks an agreement. *parties becomes the parties that it can blame. */
uint32_t givuntha_check(const uint8_t *agreement, size_t agreement_bytes, uint64_t *parties);

/*
 * The forecast of a table is what its run comes to without further readings. With a breach ahead *time becomes the
 * breach's time, which may exceed 32 bits, and *parties who will be to blame, at least one party. With none ahead both
 * become 0: *parties 0 tells it. Of a breached table the forecast is the verdict, of a fulfilled one none. On every
 * refusal both become 0.
 */

/*
 * Starts a run: the table becomes that of the agreement at its start time, whatever it held before. *time and *parties
 * become the forecast of that table.
 */
uint32_t givuntha_start(const uint8_t *agreement, size_t agreement_bytes, int64_t *table, size_t table_cells,
                        uint64_t *time, uint64_t *parties);

/*
 * Gives a run a reading: the table becomes that of the run after it. Once breached, an accepted reading alters no
 * cell; a fulfilled run only takes on its time as that of the last reading. *time and *parties become the forecast of
 * the table afterwards.
 *
 * *early becomes 1 where the reading came too early, otherwise 0: it is 1 if and only if the reading is accepted, the
 * table was running, no unit or state altered (as at GIVUNTHA_HEAD_LAST_MOVED), and at least one waiting unit wants
 * this type, finds `where` true, and has a window that opens later than the reading. Nothing but the last reading time
 * has changed then, and the reading does not count for that window. A refusal's early is 0.
 *
 * *cost becomes what the reading costs: one for each unit of the table, which is every unit in use, and one for each
 * clause activated. An else that follows the same reading is not counted again for that; sides that are later dropped
 * count. It is 0 on a fulfilled or breached table, and on a refusal other than GIVUNTHA_UNITS. On GIVUNTHA_UNITS it is
 * the refused reading's, and not zero, the one result that is not zero on a refusal. It is at most 65,792 for each unit
 * in use, so at most GIVUNTHA_MOST_COST. The forecast does not count.
 */
uint32_t givuntha_reading(const uint8_t *agreement, size_t agreement_bytes, int64_t *table, size_t table_cells,
                          const uint8_t *reading, size_t reading_bytes, uint64_t *time, uint64_t *parties,
                          uint64_t *early, uint64_t *cost);

/*
 * Tells what a reading would do, without giving it to the run: the second table becomes that of the run after the
 * reading. The answer, *time, *parties, *early and *cost are what givuntha_reading would give on a copy of the first
 * table, refusals included, and so is the cost on GIVUNTHA_UNITS.
 *
 * The first table is only read, and may be shared with others that only read it. The second overlaps nothing that is
 * lent, not the first table either. What it held before does not matter, and a refusal leaves it. Where either is not
 * GIVUNTHA_TABLE_CELLS long, the answer is GIVUNTHA_TABLE_LENGTH, unless the agreement is refused.
 *
 * After an accepted preview the second table is what givuntha_reading would make of the first: to enter the reading,
 * give it to the run on the first table, or go on with the second in its place.
 */
uint32_t givuntha_preview(const uint8_t *agreement, size_t agreement_bytes, const int64_t *table, size_t table_cells,
                          const uint8_t *reading, size_t reading_bytes, int64_t *second, size_t second_cells,
                          uint64_t *time, uint64_t *parties, uint64_t *early, uint64_t *cost);

#ifdef __cplusplus
}
#endif

#endif
