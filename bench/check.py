#!/usr/bin/env python3
"""Counts the instructions that `check` takes on agreements of about 2,048 and 16,384 bytes, and the least stack that
the program `trials` runs in on a valid and on a hostile agreement. Needs the program (cd crates/trials && rt run <stdin)
and valgrind."""
import resource
import subprocess

from records import NIL, agreement, either, instructions, lit, owes, program, rec, template, tree, u2

TRIALS = program("trials")


def bodies(size, make, party=0, need=None):
    """Four templates for each 2,048 bytes, with bodies that fill them: make(n) is a clause of n parts, and need(n) what
    it needs, where the agreement is to be sized."""
    count = 4 * size // 2048
    room = (2048 - len(agreement(owes()))) // 4
    filled = lambda n: template(make(n), 1 << party, units=need and need(n))
    n = max(n for n in range(1, 50) if len(filled(n)) <= room)
    return agreement(owes(), [filled(n)] * count, max(2, party + 1))


def clauses(size):
    """Small clauses: obligations joined by `and`."""
    return bodies(size, lambda n: tree(n, owes()))


def sized(size):
    """The same in a sized agreement (paper 02, No. 7): n obligations and the joins between them."""
    return bodies(size, lambda n: tree(n, owes()), need=lambda n: 2 * n - 1)


def alternatives(size):
    """Obligations of party 15 joined by `or`: at each its two sides' members are counted."""
    return bodies(size, lambda n: tree(n, owes(party=15), either), 15)


def expressions(size):
    """Large conditions: a sum of many numbers."""
    def total(n): return lit(1) if n == 1 else rec(37, total(n // 2) + total(n - n // 2))
    return bodies(size, lambda n: owes(where=rec(42, total(n) + lit(5))))


def hostile(n):
    """Nested as deep as the length allows, far past the limit of 24."""
    c = NIL
    while len(c) < n - 40:
        c = rec(20, c)
    return agreement(c)


def deep_and_sized():
    """A body as deep as it may be, and so deep a need."""
    body = NIL
    for _ in range(21):
        body = rec(20, NIL + body)
    return agreement(owes(), [template(body, units=21)])


def stream(*agreements): return b"".join(b"\x01" + u2(len(a)) + a + b"\x05" for a in agreements)


def least_stack(data):
    """In KB, by halving."""
    low, high = 64, 8192
    while high - low > 4:
        mid = (low + high) // 2
        limit = lambda: resource.setrlimit(resource.RLIMIT_STACK, (mid * 1024, mid * 1024))
        ok = subprocess.run([TRIALS], input=data, capture_output=True, preexec_fn=limit).returncode == 0
        low, high = (low, mid) if ok else (mid, high)
    return high


def main():
    base = instructions(TRIALS, stream())
    kinds = {"small clauses": clauses, "small clauses, sized": sized, "small clauses joined by `or`": alternatives,
             "expressions": expressions}
    for name, make in kinds.items():
        counts = []
        for size in (2048, 4096, 8192, 16384):
            a = make(size)
            n = instructions(TRIALS, stream(a)) - base
            counts.append(n)
            print(f"{name}: {len(a)} bytes, {n} instructions, {n / len(a):.0f} a byte, {n / counts[0]:.2f} times the first")
    print(f"stack of the program on no agreement: {least_stack(stream())} KB")
    print(f"stack on a valid agreement of {len(clauses(16384))} bytes: {least_stack(stream(clauses(16384)))} KB")
    deepest = NIL
    for _ in range(22):
        deepest = rec(20, deepest + NIL)
    print(f"stack on a valid agreement 24 deep: {least_stack(stream(agreement(deepest)))} KB")
    print(f"stack on a sized agreement 24 deep: {least_stack(stream(deep_and_sized()))} KB")
    print(f"stack on a hostile agreement of 16,000 bytes: {least_stack(stream(hostile(16000)))} KB")


main()
