#!/usr/bin/env python3
"""Writes stdin and stdout of the program `trials`: calls of the four entries, and what must come back.

make.py [CALLS]: the cases of cases.py, and behind them the calls of a file with one JSON object to a line: entry,
agreement and reading in hexadecimal, the table's cells that are not zero, and what came back from a monitor that was
written from paper 01 alone, but for what rounded.py, moved.py, early.py, cost.py and ahead.py say; each of its readings
is previewed first, as previews.py says. src/main.rt says how stdin is laid out. `reference/tests/trials.rs` gives the same calls to the separately written monitor.
"""
import json
import os
import struct
import sys

HERE = os.path.dirname(os.path.abspath(__file__))
sys.path.insert(0, HERE)
from ahead import NONE, ahead_at, foretold, last_reading, marked  # noqa: E402
from cases import CALLS  # noqa: E402
from cost import cost_at, costed  # noqa: E402
from early import mark  # noqa: E402
from moved import left_moved, lent_moved, moved, start_of  # noqa: E402
from previews import previewed  # noqa: E402
from records import event, u2  # noqa: E402
from rounded import rounded  # noqa: E402

AGREEMENT, READING, TABLE, CELL, SECOND, NAME = 1, 2, 3, 4, 9, 10
ENTRIES = {"check": 5, "start": 6, "reading": 7, "preview": 8}


def told(z): return f"~{-1 - z}" if z < 0 else str(z)
def cells(table): return "".join(f" {i}={told(z)}" for i, z in enumerate(table) if z)


def line(entry, number, answer, *more):
    if entry == "check":
        return f"check {number} {answer}"
    *said, (time, parties) = more
    return " ".join(map(str, (entry, number, time, parties, *said))) + cells(answer)


def named(step, data): return bytes([step]) + u2(len(data)) + data


def table_steps(table):
    out = bytes([TABLE]) + u2(len(table))
    return out + b"".join(bytes([CELL]) + u2(i) + struct.pack("<q", z) for i, z in enumerate(table) if z)


def steps(entry, data, table, reading, given):
    """The steps of a call: an agreement that was given last is not given again. A preview has both its tables."""
    out = b"" if given == data else named(AGREEMENT, data)
    if entry in ("reading", "preview"):
        out += named(READING, reading)
    if entry == "preview":
        table, second = table
        out += table_steps(second) + bytes([SECOND])
    if entry != "check":
        out += table_steps(table)
    return out + bytes([ENTRIES[entry]])


def laid(length, sparse):
    table = [0] * length
    for i, z in sparse.items():
        table[int(i)] = z
    return table


def vectors(path):
    """The calls of a file, as those of cases.py."""
    for place, text in enumerate(open(path, encoding="utf8")):
        d = json.loads(text)
        entry, data, number = d["entry"], bytes.fromhex(d["agreement"]), d["number"]
        if entry == "check":
            yield entry, data, [], b"", number, d.get("parties") or 0
            continue
        if entry == "start":
            lent = laid(d["cells"], {})
            left = lent if number else begun(place, d, data)
            yield entry, data, lent, b"", number, left, ahead_at(place, number, left)
            continue
        lent = lent_moved(place, data, laid(d["cells"], d["table"]), number)
        if entry == "forecast":
            given = event(last_reading(lent))
            left = lent if number else left_moved(lent, marked(place, lent), given)
            ahead = NONE if d.get("time") is None else (d["time"], d["parties"])
            yield "reading", data, lent, given, number, left, 0, cost_at(place, number, lent), rounded(place, ahead)
            continue
        given = bytes.fromhex(d["reading"])
        left = lent if number else left_moved(lent, rounded(place, laid(d["cells"], d["after"])), given)
        told = mark(place), cost_at(place, number, lent), ahead_at(place, number, left)
        yield previewed(place, data, lent, given, number, left, *told)
        yield entry, data, lent, given, number, left, *told


def begun(place, d, data):
    """The table that a start leaves."""
    return moved(start_of(data), rounded(place, laid(d["cells"], d["table"])))


def main():
    listed = list(foretold(costed(CALLS)))
    if len(sys.argv) > 1:
        listed += ["calls of a monitor written apart", *vectors(sys.argv[1])]
    given, stdin, stdout = None, [], []
    for c in listed:
        if isinstance(c, str):
            stdin.append(named(NAME, c.encode()))
            stdout.append("# " + c)
            continue
        entry, data, table, reading, *answer = c
        stdin.append(steps(entry, data, table, reading, given))
        stdout.append(line(entry, *answer))
        given = data
    with open(os.path.join(HERE, "stdin"), "wb") as f:
        f.write(b"".join(stdin))
    with open(os.path.join(HERE, "stdout"), "w") as f:
        f.write("".join(text + "\n" for text in stdout))
    calls = [c for c in listed if not isinstance(c, str)]
    print(len(calls), "calls:", ", ".join(f"{sum(c[0] == e for c in calls)} of {e}" for e in ENTRIES))


if __name__ == "__main__":
    main()
