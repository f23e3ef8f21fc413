#!/usr/bin/env python3
"""Judging costs what ticks: specifications with many definitions beside gtkwave's vcd2fst, which reads the same file.

    bench/quiet.py [MEGABYTES]        the size of each trace, 50 where it is not given

The program has to be built (./ccsl builds it). The traces are made in a folder of their own and removed.
"""
import random
import tempfile

from judge import SIZE, compare
from traces import wires

WIRES = 64


def turns(path):
    """Two event variables, one after the other."""
    codes = '!"'
    with open(path, "w", newline="\n") as out:
        out.write("".join(f"$var event 1 {code} {name} $end\n" for code, name in zip(codes, ["req", "ack"])) + "$enddefinitions $end\n")
        at = 0
        while out.tell() < SIZE:
            out.write("".join(f"#{at + i}\n1{codes[i % 2]}\n" for i in range(2000)))
            at += 2000


def sparse(path):
    """64 wires, of which one rises or falls at each time."""
    drawn = random.Random(7)
    codes = [chr(33 + i) for i in range(WIRES)]
    values = [0] * WIRES
    with open(path, "w", newline="\n") as out:
        for i, code in enumerate(codes):
            out.write(f"$var wire 1 {code} w{i} $end\n")
        out.write("$enddefinitions $end\n#0\n$dumpvars\n" + "".join(f"0{code}\n" for code in codes) + "$end\n")
        at = 0
        while out.tell() < SIZE:
            part = []
            for _ in range(2000):
                at += 10
                i = drawn.randrange(WIRES)
                values[i] ^= 1
                part.append(f"#{at}\n{values[i]}{codes[i]}\n")
            out.write("".join(part))


def next_wire(i):
    return f"w{(i + 1) % WIRES}"


def sampled(count):
    """Sampled clocks: 64 on the wires, and each later one on two of the 64 before it."""
    lines = [f"define s{i} = w{i} sampled on {next_wire(i)};" for i in range(min(count, WIRES))]
    for i in range(WIRES, count):
        first = i - i % WIRES - WIRES
        lines.append(f"define s{i} = s{i - WIRES} sampled on s{first + (i + 1) % WIRES};")
    lines += [f"s{i} subclock {next_wire(i)};" for i in range(WIRES)]
    return lines


# how many times as fast as vcd2fst each is to be
WANTED = {"64 unions": 3, "64 sampled clocks": 3, "64 delayed clocks": 3, "64 growing clocks": 2}

SPECIFICATIONS = {
    "64 constraints on declared clocks": [f"w{i} subclock w{i};" for i in range(WIRES)],
    "64 unions": [f"define s{i} = w{i} union {next_wire(i)}; w{i} subclock s{i};" for i in range(WIRES)],
    "64 sampled clocks": sampled(64),
    "960 sampled clocks": sampled(960),
    "64 delayed clocks": [f"define s{i} = w{i} delayed 16 on {next_wire(i)}; s{i} subclock {next_wire(i)};" for i in range(WIRES)],
    "64 growing clocks": ["expression growing(clock c, number n) = (c await n) then growing(c, n + 1);"]
    + [f"define s{i} = growing(w{i}, 1); s{i} subclock w{i};" for i in range(WIRES)],
}


def written(path, clocks, lines):
    """A specification of a system: groups stand before it."""
    groups = [line for line in lines if line.startswith("expression ")]
    items = [line for line in lines if not line.startswith("expression ")]
    with open(path, "w") as out:
        out.write(f"ccsl 2; {' '.join(groups)} system {{ clock {', '.join(clocks)}; {' '.join(items)} }}\n")
    return path


def main():
    names = [f"w{i}" for i in range(WIRES)]
    with tempfile.TemporaryDirectory() as folder:
        turns(f"{folder}/turns.vcd")
        sparse(f"{folder}/sparse.vcd")
        wires(f"{folder}/dense.vcd", SIZE)
        for line, wanted in [("req precedes within 3 ack;", None), ("alternates(req, ack);", 3)]:
            spec = written(f"{folder}/two.ccsl", ["req", "ack"], [line])
            compare(f"two events in turn, {line[:-1]}", f"{folder}/turns.vcd", spec, folder, 1, wanted)
        for name, lines in SPECIFICATIONS.items():
            spec = written(f"{folder}/one.ccsl", names, lines)
            compare(f"sparse, {name}", f"{folder}/sparse.vcd", spec, folder, 1, WANTED.get(name))
        for name, wanted in [("64 constraints on declared clocks", None), ("64 sampled clocks", 2.5)]:
            spec = written(f"{folder}/one.ccsl", names, SPECIFICATIONS[name])
            compare(f"dense, {name}", f"{folder}/dense.vcd", spec, folder, 1, wanted)


if __name__ == "__main__":
    main()
