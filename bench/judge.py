#!/usr/bin/env python3
"""Judging a trace beside gtkwave's vcd2fst, which reads the same file: times and peak memory, in one run.

    bench/judge.py [MEGABYTES]        the size of each trace, 50 where it is not given

The program has to be built (./ccsl builds it). The traces are made in a folder of their own and removed.
"""
import os, subprocess, sys, tempfile, time

from figures import note
from measured import PROGRAM, measured
from traces import events, wires

SIZE = int(sys.argv[1]) * 1_000_000 if len(sys.argv) > 1 else 50_000_000


def compare(name, trace, spec, folder, workers, wanted=None):
    own, other = [], []
    for _ in range(3):
        own.append(measured([PROGRAM, "judge", f"spec={spec}", f"trace={trace}", f"workers={workers}"]))
        other.append(measured(["vcd2fst", trace, f"{folder}/out.fst"]))
    clock, theirs = min(run.clock for run in own), min(run.clock for run in other)
    busy, others = min(run.processor for run in own), min(run.processor for run in other)
    print(f"{name}, {os.path.getsize(trace) / 1e6:.0f} MB, workers {workers}: {clock:.2f} s by the clock, {busy:.2f} s of the processor, "
          f"{own[0].memory:.1f} MB at most; vcd2fst {theirs:.2f} and {others:.2f} s: "
          f"{theirs / clock:.1f} and {others / busy:.1f} times as fast ({own[0].said})")
    note("ccsl_judge", f"{name}, workers {workers}", "vcd2fst", processor=others / busy, clock=theirs / clock, wanted=wanted)


def together(count, trace, spec):
    """The seconds by the clock of so many runs by one worker at one time."""
    words = [PROGRAM, "judge", f"spec={spec}", f"trace={trace}", "workers=1"]
    begin = time.time()
    runs = [subprocess.Popen(words, stdout=subprocess.DEVNULL) for _ in range(count)]
    for run in runs:
        run.wait()
    return time.time() - begin


def divided(name, trace, spec):
    """Four workers beside one, and beside what the machine gives at best: four separate runs at one time."""
    one, four, runs = [], [], []
    for _ in range(5):
        one.append(together(1, trace, spec))
        four.append(measured([PROGRAM, "judge", f"spec={spec}", f"trace={trace}", "workers=4"]).clock)
        runs.append(together(4, trace, spec))
    one, four, runs = sorted(one)[2], sorted(four)[2], sorted(runs)[2]
    print(f"{name}: four workers {four:.2f} s, one {one:.2f} s, so {one / four:.1f} times as fast; four runs at once {runs:.2f} s, "
          f"so the machine does {4 * one / runs:.1f} times the work of one (medians of five)")
    note("ccsl_judge", f"{name}, four workers", "one worker", clock=one / four)
    note("ccsl_judge", f"{name}, four runs at once", "one run", clock=4 * one / runs)


def main():
    with tempfile.TemporaryDirectory() as folder:
        events(f"{folder}/events.vcd", SIZE)
        wires(f"{folder}/wires.vcd", SIZE)
        with open(f"{folder}/events.ccsl", "w") as out:
            out.write("ccsl 1; system { clock a, b; a precedes weakly b; }\n")
        with open(f"{folder}/wires.ccsl", "w") as out:
            names = ", ".join(f"w{i}" for i in range(64))
            lines = " ".join(f"w{i} subclock w{i};" for i in range(64))
            out.write(f"ccsl 1; system {{ clock {names}; {lines} }}\n")
        with open(f"{folder}/sampled.ccsl", "w") as out:
            lines = " ".join(f"define s{i} = w{i} sampled on w{(i + 1) % 64}; s{i} subclock w{(i + 1) % 64};" for i in range(64))
            out.write(f"ccsl 1; system {{ clock {names}; {lines} }}\n")
        with open(f"{folder}/thrice.ccsl", "w") as out:
            on = lambda i, n: f" sampled on w{(i + n) % 64}"
            lines = " ".join(f"define s{i} = ((w{i}{on(i, 1)}){on(i, 2)}){on(i, 3)}; s{i} subclock w{(i + 3) % 64};" for i in range(64))
            out.write(f"ccsl 1; system {{ clock {names}; {lines} }}\n")
        with open(f"{folder}/free.ccsl", "w") as out:
            out.write("ccsl 1; system { clock a, b; a subclock a; }\n")
        compare("two event variables, one constraint that holds", f"{folder}/events.vcd", f"{folder}/free.ccsl", folder, 1)
        compare("two event variables, one constraint that fails", f"{folder}/events.vcd", f"{folder}/events.ccsl", folder, 1)
        for workers in (1, 4):
            compare("64 wires, 64 constraints that hold", f"{folder}/wires.vcd", f"{folder}/wires.ccsl", folder, workers)
        for workers in (1, 4):
            compare("64 wires, 64 sampled clocks, 64 constraints", f"{folder}/wires.vcd", f"{folder}/sampled.ccsl", folder, workers)
        divided("64 wires, 64 sampled clocks, 64 constraints", f"{folder}/wires.vcd", f"{folder}/sampled.ccsl")
        divided("64 wires, 64 clocks sampled thrice, 64 constraints", f"{folder}/wires.vcd", f"{folder}/thrice.ccsl")


if __name__ == "__main__":
    main()
