#!/usr/bin/env python3
"""Counts the instructions that brinewatch takes for a reading: the entry `reading`, its forecast too, and the line; and
the reads and writes of 10,000 readings. Needs the program (cd crates/brinewatch && rt run <stdin), valgrind and
strace."""
import os
import re
import struct
import subprocess
import time

from records import ROOT, agreement, both, either, instructions, joined, lit, owes, program, rec, template, tree

WATCH = program("brinewatch")
SAMPLE = open(os.path.join(ROOT, "crates", "brinewatch", "stdin"), "rb").read()[:64]


def reading(t, v=0): return rec(64, struct.pack("<IBi", t, 1, v))
def mark(t): return rec(64, struct.pack("<IB", t, 0))
def var(i): return rec(35, bytes([i]))


def cost(name, before, one, n=20):
    costs(name, before, [one] * n)


def costs(name, before, readings):
    per = (instructions(WATCH, before + b"".join(readings)) - instructions(WATCH, before)) / len(readings)
    print(f"{name}: {per:.0f} instructions a reading")


def renewed():
    """127 units: 64 obligations, each for a reading of its own number, that begin anew with each such reading."""
    body = owes(rec(22, bytes([0]) + var(0)), 1000000, rec(43, var(0) + var(1)))
    return agreement(joined([rec(22, bytes([0]) + lit(k)) for k in range(64)]), [template(body, types=[1])])


def reads_and_writes(data):
    """From a pipe that has all of the input, to a file, as `strace` counts them."""
    out = subprocess.run(["strace", "-c", "-e", "trace=read,write", WATCH], input=data, stdout=subprocess.DEVNULL, stderr=subprocess.PIPE)
    return {name.decode(): int(n) for n, name in re.findall(rb"(\d+)\s+(read|write)\n", out.stderr)}


def main():
    large = agreement(owes(within=1000000), [template(tree(14, owes()))] * 32)
    inst = rec(22, bytes([0]))
    doubling = agreement(inst, [template(owes(both(inst, inst), within=1000000))])
    grown = doubling + b"".join(reading(101 + i) for i in range(6))
    wide = agreement(tree(64, owes(within=1000000)))
    alternatives = agreement(tree(64, owes(within=1000000, party=15), either), parties=16)
    cost("the sample, a reading that waits on", SAMPLE, reading(110, 240))
    cost("the sample, a mark", SAMPLE, mark(110))
    cost(f"an agreement of {len(large)} bytes, one unit, a mark", large, mark(110))
    cost("127 units in a small agreement, a mark", grown, mark(110))
    cost("127 units, a reading refused with 11", grown, reading(110))
    cost(f"127 units of as many clauses ({len(wide)} bytes), a mark", wide, mark(110))
    cost("127 units of as many clauses of party 15 joined by `or`, a mark", alternatives, mark(110))
    for name, value in ("first", 0), ("last", 63):
        costs(f"127 units, a reading that alters the {name} of them", renewed(), [reading(110 + i, value) for i in range(20)])
    costs("127 units, a reading that alters none of them", renewed(), [reading(110 + i, 64) for i in range(20)])
    early = agreement(owes(after=1000000))
    wide_early = agreement(tree(64, owes(after=1000000)))
    last_early = agreement(joined([owes(within=1000000, where=rec(33, bytes([0])))] * 63 + [owes(after=1000000)]))
    cost("one unit, a reading that comes too early", early, reading(110))
    cost("127 units of as many clauses, a reading that comes too early for the first", wide_early, reading(110))
    cost("127 units of as many clauses, a reading that comes too early for the last alone", last_early, reading(110))
    data = SAMPLE + reading(110, 240) * 10000
    start = time.time()
    subprocess.run([WATCH], input=data, capture_output=True)
    print(f"10,000 readings of the sample: {time.time() - start:.2f} s")
    calls = reads_and_writes(data)
    print(f"{calls['read']} reads and {calls['write']} writes for {len(data)} bytes in")


main()
