#!/usr/bin/env python3
"""What `ccsl-show` takes beside `ccsl`, which answers the same, in one run: times and peak memory on runs that are judged.

    bench/show.py [MEGABYTES]        the size of each trace, 50 where it is not given

Both programs have to be built (./ccsl and ./ccsl-show build them). The traces are made in a folder of their own and removed.
"""
import os, sys, tempfile

from figures import note
from measured import PROGRAM, built, measured
from traces import events, wires

SIZE = int(sys.argv[1]) * 1_000_000 if len(sys.argv) > 1 else 50_000_000
SHOW = os.environ.get("CCSL_SHOW", built("ccsl_show_program"))
OWN = os.environ.get("CCSL", PROGRAM)


def middle(runs):
    return sorted(runs, key=lambda run: run.processor)[len(runs) // 2]


def compare(name, trace, spec):
    """The medians of three runs each, in turn."""
    short, long = [], []
    for _ in range(3):
        short.append(measured([OWN, "judge", f"spec={spec}", f"trace={trace}"]))
        long.append(measured([SHOW, "judge", f"spec={spec}", f"trace={trace}"]))
    short, long = middle(short), middle(long)
    print(f"{name}, {os.path.getsize(trace) / 1e6:.0f} MB: ccsl-show {long.processor:.2f} s of the processor and {long.memory:.1f} MB, "
          f"ccsl {short.processor:.2f} s and {short.memory:.1f} MB: {long.processor / short.processor:.2f} times the time ({short.said})")
    note("ccsl_show", name, "ccsl", processor=short.processor / long.processor, clock=short.clock / long.clock, wanted=0.5)


def main():
    with tempfile.TemporaryDirectory() as folder:
        events(f"{folder}/events.vcd", SIZE)
        wires(f"{folder}/wires.vcd", SIZE)
        names = ", ".join(f"w{i}" for i in range(64))
        specs = {
            "free": "clock a, b; a subclock a;",
            "union": "clock a, b; define c = a union b; a subclock c;",
            "wires": f"clock {names}; " + " ".join(f"w{i} subclock w{i};" for i in range(64)),
            "sampled": f"clock {names}; " + " ".join(
                f"define s{i} = w{i} sampled on w{(i + 1) % 64}; s{i} subclock w{(i + 1) % 64};" for i in range(64)),
        }
        for name, body in specs.items():
            with open(f"{folder}/{name}.ccsl", "w") as out:
                out.write(f"ccsl 1; system {{ {body} }}\n")
        compare("a run of two event variables", f"{folder}/events.vcd", f"{folder}/free.ccsl")
        compare("the same with a defined clock", f"{folder}/events.vcd", f"{folder}/union.ccsl")
        compare("a run of 64 wires", f"{folder}/wires.vcd", f"{folder}/wires.ccsl")
        compare("the same with 64 sampled clocks", f"{folder}/wires.vcd", f"{folder}/sampled.ccsl")


if __name__ == "__main__":
    main()
