#!/usr/bin/env python3
"""Steps a second of the built program on chains of alternating clocks, beside a copy of what it wrote.

    python3 bench/simulation.py
"""
import tempfile

from measured import PROGRAM, measured


def chain(clocks):
    names = [f"c{i}" for i in range(clocks)]
    pairs = " ".join(f"alternates({a}, {b});" for a, b in zip(names, names[1:]))
    return f"ccsl 1; system {{ clock {', '.join(names)}; {pairs} }}\n"


def main():
    with tempfile.TemporaryDirectory() as folder:
        for clocks, steps in [(2, 100_000), (2, 10_000_000), (24, 20_000), (512, 200)]:
            with open(f"{folder}/spec", "w") as file:
                file.write(chain(clocks))
            run = measured([PROGRAM, "simulate", f"spec={folder}/spec", "policy=seeded", "seed=7", f"steps={steps}",
                            f"trace={folder}/trace", f"cert={folder}/cert"])
            assert run.status == 0
            copy = measured(["cp", f"{folder}/trace", f"{folder}/copy"]).processor
            print(f"{clocks} clocks, {steps} steps: {steps / run.processor:,.0f} steps a second, "
                  f"{run.processor / max(copy, 0.001):,.0f} times a copy of the trace")


main()
