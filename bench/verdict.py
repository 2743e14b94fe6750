#!/usr/bin/env python3
"""Counts the instructions of the verdict program on the largest images. Needs valgrind, and crates/verdict/out/verdict (rt run < stdin in crates/verdict).

usage: bench/verdict.py [PROGRAM]
"""
import re
import struct
import subprocess
import sys

MASK_8 = bytes([0, 8])
UNIT, PURE, LET, RAISE = 16, 23, 24, 25
VARIABLE, ABSTRACTION, APPLICATION = 17, 18, 19


def image(types, terms):
    entries = types + terms
    out = struct.pack("<HH", len(types), len(terms))
    out += bytes(e[0] for e in entries)
    for _, first, second, third in entries:
        out += struct.pack("<IIQ", first, second, third)
    return MASK_8 + out


def chain_of_types(count):
    return [(1, 0, 0, 0)] + [(4, i, 0, 1) for i in range(count - 1)]


def full_types():
    """Function types that double in size up to 4,095 parts, and guarded types up to 512 entries."""
    types = [(1, 0, 0, 0)] + [(2, i, i, 0) for i in range(11)]
    return types + [(3, 0, 0, 1)] * (512 - len(types))


def deep(count):
    """Units in units."""
    return [(UNIT, 0, 0, 0)] + [(PURE, i, 0, 0) for i in range(count - 1)]


def wide(count):
    """A tree of lets over units of unit."""
    terms, level = [], []
    while len(terms) + 3 * 2 <= count or not level:
        terms += [(UNIT, 0, 0, 0), (PURE, len(terms), 0, 0)]
        level.append(len(terms) - 1)
        if len(terms) + 3 * len(level) > count:
            break
    while len(level) > 1:
        terms.append((LET, level[0], level[1], 0))
        level = level[2:] + [len(terms) - 1]
    while len(terms) < count:
        terms.append((RAISE, len(terms) - 1, 0, 1))
    return terms


def compared(count, claim):
    """Under one binder of the largest type: identities of that type applied to each other's result."""
    terms = [(VARIABLE, 0, 0, 0)]
    while len(terms) + 4 <= count:
        argument = len(terms) - 1
        terms += [(VARIABLE, 0, 0, 0), (ABSTRACTION, len(terms), claim, claim)]
        terms.append((APPLICATION, len(terms) - 1, argument, 0))
    terms.append((ABSTRACTION, len(terms) - 1, claim, claim))
    while len(terms) < count:
        terms.append((PURE, len(terms) - 1, 0, 0))
    return terms


CASES = [
    ("no input", b""),
    ("no types, a unit", image([], [(UNIT, 0, 0, 0)])),
    ("no types, 128 terms deep", image([], deep(128))),
    ("no types, 256 terms deep", image([], deep(256))),
    ("no types, 512 terms deep", image([], deep(512))),
    ("no types, 1,024 terms deep", image([], deep(1024))),
    ("512 types in a chain, 1,024 terms deep", image(chain_of_types(512), deep(1024))),
    ("512 types in a chain, 1,024 terms wide", image(chain_of_types(512), wide(1024))),
    ("512 types, 1,024 terms, 340 comparisons of types of 4,095 parts", image(full_types(), compared(1024, 11))),
]


def main():
    program = sys.argv[1] if len(sys.argv) > 1 else "crates/verdict/out/verdict"
    print("| input | bytes | verdict | instructions |")
    print("|---|---|---|---|")
    for name, data in CASES:
        run = subprocess.run(
            ["valgrind", "--tool=cachegrind", "--cache-sim=no", "--cachegrind-out-file=/dev/null", program],
            input=data, capture_output=True, check=True)
        count = re.search(rb"I\s+refs:\s+([\d,]+)", run.stderr).group(1).decode()
        verdict = f"{run.stdout[0]}, {run.stdout[1]}"
        print(f"| {name} | {len(data):,} | {verdict} | {count} |")


main()
