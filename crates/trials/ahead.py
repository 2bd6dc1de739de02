"""The forecast (paper 02, No. 2), in the calls that were made before a start and a reading told it.

"Start and reading both answer with the forecast of the table they leave; a refusal gives zeros for it." A fulfilled
table has no breach ahead, and "a breached table gives its verdict". The breach ahead of a running table is listed
here, its time and its parties by bit, as the second monitor foretells it; of what is not listed there is none.
"""
from itertools import chain, repeat

NONE = (0, 0)

# of the calls of cases.py: by their cause, of the running tables that its calls leave, in their order; the last of a
# list is of all that follow
BY_CAUSE = {
    "6: 'Start ignores the table's earlier contents.'": [(160, 3)],
    "7: the table that the others alter is the run's": [(160, 2)],
    "7: an `or` as the left side of an `and`": [(160, 3)],
    "7: A at the start and at the last reading time, before and after them": [(170, 2)],
    "7: a parameter that is not used, in range and not; another not in range; one where there is none": [(160, 2)],
    "7: a number at its ends and beyond them": [(160, 2)],
    "7: what is no truth, no party": [(160, 2)],
    "7: a party of the main clause, and one that is not": [(160, 1)],
    "7: the rule for `or`: two parties beside an `or`, by a parameter and by an `and` turned into an `or`": [(160, 2)],
    "7: each party alone on both sides of an `or`: itself, by the first parameter, by the last":
        [(160, 1 << p) for p in range(16) for _ in range(3)],
    "11: by a reading; before it 10": [(160, 1)],
    "the quotient with a fraction is not the number above it": [(160, 1)],
    "7: when it last moved at its ends and beyond them: running": [(160, 2)],
    "7: it asks nothing of any A": [(160, 2)],
    "it begins as the start time, whatever the table held": [(160, 1)],
    "a mark moves the last reading time alone; so does a reading that nothing wants": [(160, 1), (165, 1), (160, 1)],
    "a unit with another A has altered": [(170, 1)],
    "a unit replaced by its equal, T being A, has not": [(160, 1), (180, 1), (181, 1)],
    "T being A: another value alone, other parameters alone, another place have altered":
        [(180, 1)] * 3 + [(180, 2), (180, 1)],
    "fewer units in use, more, and a breach and a fulfilment have altered": [(160, 1), (170, 1)],
    "early: an obligation, before its window, at its ends, after it": [(160, 1)],
    "early: a choice, before its window, at its ends, after it": [(460, 1)],
    "early: once more, at the last reading time and after it": [(160, 1)],
    "early: not when refused with 11; with another value the same unit waits": [(160, 1)],
    "early: not where the unit was dropped with the `or` that was fulfilled": [(400, 1)],
    "early: not where another unit takes the reading and its `then` waits: on either side of `and`, of `or`":
        [(160, 1)] * 3 + [(410, 1)],
    "early: nor where that unit is fulfilled; the next reading of that minute finds the other alone": [(160, 1)],
    "early: nor where another unit is late: a breach, in its last minute not yet": [(105, 2)],
    "early: nor where an `or` loses its late side": [(160, 1)],
    "early: nor where a choice is late, and its else waits": [(160, 1)],
    "early: the reading that brings an else is not, the next is": [(165, 1)],
    "early: not where a unit alters at the time that cell 5 held already": [(160, 1)],
    "early: not by another type, with a value and without": [(160, 1)],
    "early: not by a type with the same values": [(160, 1)],
    "early: not by a time mark": [(160, 1)],
    "early: not with `where` false, before the window and in it; of an obligation and of a choice":
        [(160, 1)] * 6 + [(0, 0)] * 6 + [(160, 1)],
    "early: `where` divides as No. 5 says": [(160, 1)],
    "early: not where first is the reading's time or before it, though nothing alters: `then` is the same once more":
        [(180, 1), (179, 1), (120, 1), (181, 1), (182, 1)],
    "early: one unit has to have all three: each of three has two of them; with one that has them all": [(160, 1)],
    "early: the first of three units, the second, the third, none: under `and` and `or`, left and right":
        [(160, 1)] * 4 + [(401, 1), (160, 1), (401, 1), (401, 1)] + [(160, 1)] * 2 + [(400, 1)] * 2
        + [(401, 1), (400, 1), (401, 1), (401, 1)] + [(160, 1)] * 5 + [(400, 1)] * 3 + [(160, 1)] * 2
        + [(400, 1)] * 2 + [(401, 1), (400, 1), (401, 1)],
    "early: two of them, together and by another value each": [(150, 2)] * 3 + [(160, 1)],
    "early: clauses that do not wait are no units: in a `then`, in an else, beside an if, in a template":
        [(160, 1)] * 4 + [(0, 0)] * 2 + [(220, 1)] * 4 + [(400, 1)] * 6 + [(160, 1)],
    "early: `where` and `after` see a unit's own values; its parameters do not matter":
        [(190, 2)] * 7 + [(200, 1), (190, 2), (200, 1)],
    "early: in a `then`, the earlier reading's value and the remaining time": [(200, 1)] * 7 + [(220, 1)],
    "early: `after` is worked out by the rules: a quotient rounds down, a sum is held at its end":
        [(180, 1)] * 3 + [(1_000_000_160, 1)],
    "early: not with a negative `after`: `where` false, taken, replaced by its equal":
        [(1_000_000_099, 1)] * 2 + [(1_000_000_080, 1)] * 2 + [(100, 1)],
    "early: a window that ends before it begins: until its last minute, not after it": [(130, 1)] * 2 + [(119, 1)],
    "early: a choice with such a window": [(430, 1)],
    "early: not where the window ended before it was activated: the state alters, a side is lost, an else waits":
        [(400, 1)],
    "early: beside a unit replaced by its equal, through a `then` and through an else; a minute later A alters":
        [(160, 1)] * 5 + [(161, 1)] + [(160, 1)] * 5 + [(161, 1)],
    "early: by itself such a unit is not, its first being the reading's time": [(160, 1)],
    "early: beside a unit that is fulfilled where another becomes both of them": [(160, 1)],
    "early: a unit that a fulfilled `or` drops, and that another brings back: it was there and is there":
        [(160, 1)] * 2 + [(161, 1)],
    "early: not by a clause of an else, or of a `then`, that is dropped at once: it is no unit of the table":
        [(160, 1)],
    "early: a unit that is late, whose first is later, and that stands there again: by the words of No. 8 it is":
        [(160, 1)],
    "early: so it is not with `where` false, nor by another type": [(160, 1)],
    "early: an obligation too: its `or` loses it, and the other side becomes that `or`": [(160, 1)],
    "early: a first at that minute and beyond 32 bits":
        [(4_294_967_355, 1)] * 2 + [(4_294_967_356, 1)] * 3 + [(4_294_967_450, 1)] * 3 + [(5_294_967_350, 1)] * 3
        + [(4_294_967_360, 1), (4_294_967_355, 1), (4_294_967_356, 1)],
    "early: a first beyond 32 bits of a window that is past in the next minute, and of one that is past already":
        [(4_294_967_350, 1), (4_294_967_355, 1), (4_294_967_355, 1), (4_294_967_350, 1), (4_294_967_355, 1)],
    "early: another A than the run's, wherever cell 5 stands": [(160, 1)] * 6 + [(170, 1)] * 2 + [(178, 1)],
    "early: values and parameters that are handed to nobody, a place that is not reached yet, a template not named":
        [(1_000_000_165, 2)] * 3 + [(161, 1), (159, 1), (165, 1)],
    "early: joined as the agreement does not join it": [(170, 1), (168, 1), (170, 1)],
    "early: one of 127 units, none of them, each that waits": [(160, 1)] * 7 + [(400, 1), (160, 1)],
    "cost: a unit that waits on: at a mark, another type, `where` false, too early; an obligation and a choice":
        [(160, 1)] * 4 + [(460, 1)],
    "cost: joins are units too: three units, five, 127": [(400, 1), (160, 1), (401, 1), (401, 1), (400, 1)],
    "cost: an obligation, without its own `then`": [(170, 1)],
    "cost: a choice, without its own `then` and else": [(470, 1)],
    "cost: an if and the side that it picks, by a truth, by the reading's value, in another if": [(410, 1)],
    "cost: an `and` and both sides, a fulfilled one too": [(410, 1)],
    "cost: an `or` and both sides, what a fulfilled one drops too": [(411, 1)],
    "cost: an instance and its template's body, which may be another instance; values are no clauses":
        [(410, 1)] * 2 + [(180, 1)],
    "cost: a choice that takes the reading; its else is not activated": [(410, 1)],
    "cost: a `then` is not given the same reading: the next one activates what follows": [(170, 1), (410, 1)],
    "cost: both sides of a join take the reading, or one of them": [(410, 1), (400, 1), (411, 1)],
    "cost: the unit is replaced by its equal, no cell alters: activated all the same": [(180, 1)],
    "cost: an else of each kind, of which nothing takes the reading or is late":
        [(165, 1), (465, 1), (405, 1), (405, 1), (406, 1), (405, 1)],
    "cost: a chain of elses: as many as are late; the next one takes the reading, and is fulfilled": [(140, 1)],
    "cost: to its end, where the obligation is breached: at once and by turns": [(140, 1)],
    "cost: choices late as soon as they are activated, also as deep as records nest": [(405, 1)],
    "cost: a `then` under an else, under two of them; without the reading that it takes": [(165, 1), (406, 1)],
    "cost: such a `then` is not given the same reading, be it one that would be late": [(166, 1), (406, 1)],
    "cost: an else of two waits: one follows, both, by a `then` and by an else":
        [(165, 1), (406, 1), (406, 1), (405, 1)],
    "cost: the sides of an if in an else: the one that is picked follows": [(406, 1)],
    "cost: 64 late choices, each with its else, and with its `then` too": [(165, 1)],
    "cost: a side that an `or` loses: its else is breached": [(400, 1)],
    "cost: what stands beside such an `or` follows": [(166, 1)],
    "cost: an `and` with a fulfilled side in an else: the other side follows":
        [(165, 1), (406, 1), (165, 1), (406, 1), (405, 1)],
    "cost: such an `and` does not fulfil an `or`: both sides of it follow": [(406, 1)],
    "cost: 11 by a `then`: 65 instances of one clause under 64 joins; 64 under 63 are accepted": [(410, 1)],
    "cost: 11 by an else; where each takes the reading it is accepted": [(405, 1)],
    "cost: P15, reading by reading; the seventh is refused with 11; then marks, to the breach and after it":
        [(160, 1), (161, 1), (162, 1), (163, 1), (164, 1), (165, 1), (166, 1)],
    "cost: the most of a reading: 64 of them under 63 joins, each by a `then`": [(160, 1), (165, 1)],
}

# of the calls that were made from paper 01 alone: by the call's place in its file
BY_PLACE = {
    1: (3_478_358_440, 1), 7: (1060, 1), 21: (1_150_401_160, 128), 29: (81, 64), 49: (103, 1), 81: (100, 1),
    111: (145, 5), 112: (145, 5), 147: (120, 1), 150: (120, 1), 161: (120, 4), 162: (120, 4),
    187: (4_294_967_383, 16), 194: (4_294_967_383, 16), 196: (4_294_967_383, 16), 202: (4_294_967_383, 16),
    204: (4_294_967_383, 16), 208: (4_294_967_383, 16), 210: (4_294_967_383, 16), 217: (2047, 1), 220: (1047, 1),
    243: (200, 1), 244: (296, 2), 297: (1_000_000_099, 1), 302: (1_000_000_290, 1), 304: (1_000_000_290, 1),
    311: (4_294_967_192, 2), 343: (180, 2), 349: (372_229_134, 1), 363: (2_857_150_166, 1), 364: (2_190_483_545, 2),
    366: (2_190_483_545, 2), 373: (105, 1), 399: (100, 1), 400: (100, 1), 439: (4_294_967_215, 1),
    440: (4_294_967_255, 2), 469: (1_000_100, 1), 499: (65, 8), 517: (100, 1), 523: (4_294_967_115, 4),
    565: (600, 1), 581: (1070, 2), 589: (2_330_514_279, 1), 590: (2_330_514_279, 1), 596: (2_330_514_279, 1),
    600: (2_330_514_279, 1), 615: (130, 16), 641: (10, 2), 697: (500_000_160, 4), 723: (5, 1), 769: (0, 1),
    777: (160, 1), 778: (138, 1), 799: (100, 3),
}

# "The separate forecast entry goes": a mark at the table's last reading time asks for it. By the call's place in its
# file: the cells that hold another value afterwards, where a unit is late by then; behind the units in use all are zero
MARKED = {
    3: {0: 3, 2: 3_478_358_440, 3: 1, 4: 0},
    33: {8: 17, 9: 2864, 10: 47},
    163: {104: 17, 105: 1290},
    221: {4: 7, 104: 18, 105: 84, 106: 1000, 112: 1_000_000_000, 129: 214, 153: 257},
    319: {4: 5, 32: 21, 56: 18, 57: 71, 58: 100, 80: 17, 81: 719, 82: 100, 105: 793},
    347: {0: 3, 2: 180, 3: 2, 4: 0},
    365: {176: 17, 177: 415, 272: 17, 273: 415, 488: 17, 489: 415, 584: 17, 585: 415},
    367: {224: 17, 225: 415, 320: 17, 321: 415, 488: 17, 489: 415, 584: 17, 585: 415},
    423: {0: 2, 4: 0},
    585: {4: 3, 56: 18, 57: 656, 58: 1043, 64: 7},
    591: {4: 1, 8: 17, 9: 561, 10: 2_330_514_100, 16: 1},
    699: {4: 1, 8: 17, 9: 141, 10: 100, 11: 2, 12: 2, 13: 2, 14: 2},
}

STATE, LAST_READING, TIME, PARTIES, USED, HEAD, UNIT = 0, 1, 2, 3, 4, 8, 24
RUNNING, BREACHED = 1, 3
TOLD = {"start": 7, "reading": 9}  # the parts of a call with its forecast


def ahead(number, left, running):
    """Of a call that leaves this table; of a running one as it is listed."""
    if number:
        return NONE
    if left[STATE] == BREACHED:
        return left[TIME], left[PARTIES]
    return running() if left[STATE] == RUNNING else NONE


def ahead_at(place, number, left): return ahead(number, left, lambda: BY_PLACE.get(place, NONE))


def foretold(calls):
    """The calls of cases.py, each start and each reading with its forecast behind."""
    listed = repeat(NONE)
    for c in calls:
        if isinstance(c, str):
            known = BY_CAUSE.get(c, [NONE])
            listed = chain(known, repeat(known[-1]))
        elif len(c) < TOLD.get(c[0], 0):
            _, _, _, _, number, left, *_ = c
            c = *c, ahead(number, left, lambda: next(listed))
        yield c


def last_reading(table): return table[LAST_READING] if len(table) > LAST_READING else 0


def marked(place, table):
    """The table that a mark at its last reading time leaves."""
    other = MARKED.get(place, {})
    left = [other.get(cell, value) for cell, value in enumerate(table)]
    used = HEAD + UNIT * left[USED]
    return left[:used] + [0] * (len(left) - used)
