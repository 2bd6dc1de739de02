"""What a reading costs (paper 02, No. 9), in the calls that were made before it was asked for.

"Count one for each unit of the table read, which is every unit in use, and one for each clause activated": the units
in use are cell 4 of a running table. The clauses activated are listed here, as the second monitor counts them; what is
not listed activates none.
"""

# of the calls of cases.py: by their cause, of its readings in their order
BY_CAUSE = {
    "7: the table that the others alter is the run's": [1],
    "11: by a reading; before it 10": [194],
    "11: a side that an `or` drops costs nothing": [196],
    "the quotient with a fraction: it rounds down, by a number above 0 and by one below": [1] * 10,
    "the quotient without a fraction": [1] * 4,
    "the quotient by 0 is 0": [1] * 3,
    "the quotient of both ends by 1 and by -1": [1] * 4,
    "a unit with another A has altered": [2],
    "a unit replaced by its equal, T being A, has not": [2] * 3,
    "T being A: another value alone, other parameters alone, another place have altered": [2, 2, 2, 2, 1],
    "fewer units in use, more, and a breach and a fulfilment have altered": [0, 5, 0, 2],
    "8, 9, 10 and 11 leave it": [0, 0, 0, 194],
    "early: an obligation, before its window, at its ends, after it": [0, 0, 0, 1, 1],
    "early: a choice, before its window, at its ends, after it": [0, 0, 1, 1, 1],
    "early: not when refused with 11; with another value the same unit waits": [194, 0] * 2,
    "early: not where the unit was dropped with the `or` that was fulfilled": [0, 1],
    "early: not where another unit takes the reading and its `then` waits: on either side of `and`, of `or`":
        [1, 1, 0] * 2,
    "early: nor where that unit is fulfilled; the next reading of that minute finds the other alone": [1, 0, 0] * 2,
    "early: nor where that fulfils an `or`": [1] * 2,
    "early: nor where a choice is late, and its else waits": [0, 1],
    "early: the reading that brings an else is not, the next is": [0, 1, 0, 0, 1],
    "early: not where a unit alters at the time that cell 5 held already": [1],
    "early: not with `where` false, before the window and in it; of an obligation and of a choice":
        [0, 0, 0, 0, 0, 0, 1] * 2,
    "early: not where first is the reading's time or before it, though nothing alters: `then` is the same once more":
        [2, 2, 2, 0, 2],
    "early: one unit has to have all three: each of three has two of them; with one that has them all": [2] * 2,
    "early: two of them, together and by another value each": [0, 0, 0, 1],
    "early: `where` and `after` see a unit's own values; its parameters do not matter": [0, 0, 0, 0, 0, 0, 1, 1],
    "early: in a `then`, the earlier reading's value and the remaining time": [1, 0, 0, 0, 0, 0, 0, 1] * 2,
    "early: `after` is worked out by the rules: a quotient rounds down, a sum is held at its end":
        [0, 0, 0, 1, 0, 0, 1],
    "early: not with a negative `after`: `where` false, taken, replaced by its equal": [0, 1, 2] * 3,
    "early: a choice with such a window": [0, 0, 1, 1],
    "early: not where the window ended before it was activated: the state alters, a side is lost, an else waits":
        [0, 0, 1],
    "early: beside a unit replaced by its equal, through a `then` and through an else; a minute later A alters":
        [2] * 6 + [3] * 6,
    "early: by itself such a unit is not, its first being the reading's time": [3],
    "early: beside a unit that is fulfilled where another becomes both of them": [6] * 2,
    "early: a unit that a fulfilled `or` drops, and that another brings back: it was there and is there": [9] * 3,
    "early: not by a clause of an else, or of a `then`, that is dropped at once: it is no unit of the table":
        [8] * 3 + [6] * 3,
    "early: a unit that is late, whose first is later, and that stands there again: by the words of No. 8 it is":
        [3, 3, 3, 0, 3, 3, 3],
    "early: so it is not with `where` false, nor by another type": [3] * 2,
    "early: an obligation too: its `or` loses it, and the other side becomes that `or`": [5] * 3,
    "early: a first at that minute and beyond 32 bits": [0] * 11 + [2, 2],
    "early: a first beyond 32 bits of a window that is past in the next minute, and of one that is past already":
        [0, 3, 0, 3, 3, 3],
    "early: another A than the run's, wherever cell 5 stands": [0, 0, 1] * 6,
    "early: joined as the agreement does not join it": [0, 0, 1],
}

# of the calls that were made from paper 01 alone: by the call's place in its file
BY_PLACE = {
    2: 1, 3: 1, 33: 1, 112: 2, 152: 2, 154: 1, 162: 2, 163: 1, 164: 1, 220: 1, 221: 1, 222: 1, 244: 1, 276: 1, 302: 8,
    304: 7, 318: 3, 319: 2, 364: 41, 365: 4, 366: 4, 367: 4, 400: 127, 414: 1, 423: 1, 440: 5, 448: 1, 585: 1, 616: 4,
    698: 1, 724: 2, 756: 2, 760: 2, 762: 2, 778: 127, 786: 1,
}

STATE, USED, RUNNING = 0, 4, 1
COSTED = 8  # the parts of a reading's call with its mark and its cost


# "On a fulfilled or breached table, and on a refusal other than 11, the count is 0"
def cost(number, table, activated):
    return table[USED] + activated if number in (0, 11) and table[STATE] == RUNNING else 0


def cost_at(place, number, table): return cost(number, table, BY_PLACE.get(place, 0))


def costed(calls):
    """The calls of cases.py, each reading with its mark and its cost."""
    activated = iter(())
    for c in calls:
        if isinstance(c, str):
            activated = iter(BY_CAUSE.get(c, ()))
        elif c[0] == "reading" and len(c) < COSTED:
            entry, data, table, event, number, after, *mark = c
            c = entry, data, table, event, number, after, *(mark or [0]), cost(number, table, next(activated, 0))
        yield c
