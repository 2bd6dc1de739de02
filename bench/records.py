"""Records of paper 01 for the measurements, and the instructions that a program takes on an input (by valgrind)."""
import os
import re
import struct
import subprocess

ROOT = os.path.join(os.path.dirname(os.path.abspath(__file__)), "..")


def u2(n): return struct.pack("<H", n)
def rec(kind, body=b""): return u2(4 + len(body)) + u2(kind) + body
def lit(z): return rec(32, struct.pack("<i", z))


YES, NIL = rec(33, b"\x01"), rec(16)


def owes(then=NIL, within=60, where=YES, party=0, after=0):
    return rec(17, bytes([party, 1]) + where + lit(after) + lit(within) + then)


def both(a, b): return rec(20, a + b)
def either(a, b): return rec(21, a + b)


def template(body, declared=1, types=(), units=None):
    """Of kind 4 where it declares units."""
    head = bytes([len(types), *types, 0]) + u2(declared)
    return rec(3, head + body) if units is None else rec(4, head + bytes([units]) + body)


def tree(n, leaf, join=both):
    """n leaves joined by `and`, or by the join given, in balance."""
    return joined([leaf] * n, join)


def joined(leaves, join=both):
    """The leaves joined in balance."""
    half = len(leaves) // 2
    return join(joined(leaves[:half], join), joined(leaves[half:], join)) if half else leaves[0]


def agreement(main, templates=(), parties=2):
    head = struct.pack("<I", 100) + bytes([parties, 1, len(templates)]) + rec(2, bytes([1, 1]))
    return rec(1, head + b"".join(templates) + main)


def program(name): return os.path.join(ROOT, "crates", name, "out", name)


def instructions(path, data):
    out = subprocess.run(["valgrind", "--tool=callgrind", "--callgrind-out-file=/dev/null", path], input=data, capture_output=True)
    return int(re.search(rb"Collected : (\d+)", out.stderr).group(1))
