"""Measures explanations by the built program: 4,096 constraints over 1,024 clocks, of which a ring of 1,024 blocks every step.

    python3 bench/explain.py [PROGRAM]

In the ring each clock precedes the next one, so all of it blocks; behind it stand constraints that do not. The times are of whole
processes, parsing and elaboration included: of `check` on the same text, and of `explain`.
"""
import os
import random
import sys
import tempfile

from measured import PROGRAM, measured

PROGRAM = os.path.abspath(sys.argv[1]) if len(sys.argv) > 1 else PROGRAM


def ring(clocks, others):
    pick = random.Random(11)
    names = [f"c{i}" for i in range(clocks)]
    lines = [f"{names[i]} precedes {names[(i + 1) % clocks]};" for i in range(clocks)]
    for _ in range(others):
        left, right = pick.sample(names, 2)
        lines.append(f"{left} {pick.choice(['excludes', 'precedes weakly'])} {right};")
    pick.shuffle(lines)
    return names, f"ccsl 1; system {{ clock {', '.join(names)};\n" + "\n".join(lines) + " }\n"


def main():
    with tempfile.TemporaryDirectory() as folder:
        for clocks, others in [(64, 192), (256, 768), (1024, 3072)]:
            names, text = ring(clocks, others)
            with open(f"{folder}/spec", "w") as file:
                file.write(text)
            with open(f"{folder}/trace", "w") as file:
                file.write("".join(f"$var event 1 c{i} {name} $end\n" for i, name in enumerate(names)) + "$enddefinitions $end\n")
            check = measured([PROGRAM, "check", f"spec={folder}/spec"])
            explain = measured([PROGRAM, "explain", f"spec={folder}/spec", f"trace={folder}/trace", f"cert={folder}/cert"])
            print(f"{clocks} clocks, {clocks + others} constraints: check {check.processor:.2f} s, "
                  f"explain {explain.processor:.2f} s: {explain.said.splitlines()[0]}")


main()
