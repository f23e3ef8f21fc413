#!/usr/bin/env python3
"""How long the worst words take: prefix and period of 4,096 letters, and periods without a common divisor.

    bench/periodic.py

The program has to be built (./ccsl builds it). The times are processor times of its whole run, the best of three runs.
"""
from measured import PROGRAM, best

WORST = [
    ("excludes, which never fails", "excludes", "(" + "0" * 4096 + ")", "(" + "1" * 4095 + ")"),
    ("subclock, which never fails", "subclock", "(" + "1" * 4096 + ")", "(" + "1" * 4095 + ")"),
    ("precedes, which never fails", "precedes", "(" + "1" * 4096 + ")", "(0" + "1" * 4094 + ")"),
    ("precedes, overtaken in the first turn", "precedes", "(" + "1" * 4094 + "00)", "(0" + "1" * 4094 + ")"),
    ("precedes, which loses one in each turn", "precedes", "1" * 2049 + "(" + "1" * 2046 + "0)", "0" * 2048 + "(0" + "1" * 2047 + ")"),
    ("a prefix that waits for its ones", "on", "(" + "0" * 4095 + "1)", "0" * 4095 + "(1)"),
    ("a period sought to its end", "on", "(1)", "(" + "0" * 4095 + "1)"),
]


for name, relation, left, right in WORST:
    run = best([PROGRAM, "periodic", f"left={left}", f"right={right}", f"relation={relation}"], 3)
    print(f"{name}: {run.processor:.3f} s, {run.memory:.1f} MB, {run.said[:60]}")
