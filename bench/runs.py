#!/usr/bin/env python3
"""Counts the instructions of runs, by the program pace. Needs valgrind, and crates/pace/out/pace (rt run < stdin in crates/pace).

usage: bench/runs.py [PROGRAM]
"""
import re
import struct
import subprocess
import sys

UNIT, VARIABLE, ABSTRACTION, FIX, PURE, RAISE = 16, 17, 18, 20, 23, 25
TURNING = [(VARIABLE, 0, 0, 0), (ABSTRACTION, 0, 0, 0), (FIX, 1, 0, 0)]


def order(terms, budget, places):
    """The mask of width 8, one base type, the terms, role 0, a budget and a number of term places."""
    entries = [(1, 0, 0, 0)] + terms
    out = bytes([0, 8]) + struct.pack("<HH", 1, len(terms)) + bytes(e[0] for e in entries)
    for _, first, second, third in entries:
        out += struct.pack("<IIQ", first, second, third)
    return out + struct.pack("<QQH", 0, budget, places)


def deep(count):
    """Units in units."""
    return [(UNIT, 0, 0, 0)] + [(PURE, i, 0, 0) for i in range(count - 1)]


def instructions(program, data):
    run = subprocess.run(
        ["valgrind", "--tool=cachegrind", "--cache-sim=no", "--cachegrind-out-file=/dev/null", program],
        input=data, capture_output=True, check=True)
    return int(re.search(rb"I\s+refs:\s+([\d,]+)", run.stderr).group(1).replace(b",", b""))


def main():
    program = sys.argv[1] if len(sys.argv) > 1 else "crates/pace/out/pace"
    raised = TURNING + [(RAISE, 2, 0, 0)]
    cases = [(f"fix of the identity, {k:,} steps", order(TURNING, k, 3)) for k in (0, 1000, 10000, 100000)]
    cases += [(f"raise over it, {k:,} steps, each appending one entry", order(raised, k, 16384)) for k in (0, 1000, 4000, 16000)]
    cases += [(f"{n:,} terms, no step", order(deep(n), 0, n)) for n in (1, 512, 1024)]
    for name, data in cases:
        print(f"| {name} | {instructions(program, data):,} |", flush=True)


main()
