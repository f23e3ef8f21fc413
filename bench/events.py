"""Measures how fast ccsl-events makes a trace of events, beside vcd2fst, on the traces of bench/reader.py.

    python3 bench/events.py FOLDER [PROGRAM]

The first is made of a record of each event, the second of a rise of each wire, the third of 16 nets, the fourth of a clock, of
changes of vectors and of values of some of their bits, the last of a clock, an event and two nets. What is written is thrown away.
A time is the processor time of a whole process, the best of so many, in turn with the other's. Beside it stands the most memory
that it held, on the trace and on its first tenth.
"""
import os
import sys

from figures import note
from measured import built, measured
from reader import ROUNDS, SIZE, TRACES
from traces import made

PROGRAM = built("ccsl_events_program")
WANTED = 3


def rises(names):
    return [f"{name} = rise {name};" for name in names]


EVENTS = {
    "events": ["a = event a;", "b = event b;"],
    "toggles": rises(f"w{i}" for i in range(64)),
    "nets": rises(["w0", "w1"] + [f"w{300 * i}" for i in range(1, 15)]),
    "vectors": ["clk = rise top.clk;"] + [f"c{i} = change v{i} when top.clk == 1;" for i in range(1, 5)]
               + [f"b{i} = becomes v{i}[3:0] == 5;" for i in range(5, 9)],
    "simulated": ["clk = rise top.clk;", "beat = event beat;", "req = rise req when ack == 0;", "ack = fall ack;"],
}


def main():
    folder = sys.argv[1]
    program = sys.argv[2] if len(sys.argv) > 2 else PROGRAM
    os.makedirs(folder, exist_ok=True)
    for name, make, *_rest in TRACES:
        path = made(folder, name, make, SIZE)
        with open(path + ".events", "w") as file:
            file.write("events 1;\n" + "\n".join(EVENTS[name]) + "\n")
        with open(path, "rb") as whole, open(path + ".tenth", "wb") as tenth:
            tenth.write(whole.read(SIZE // 10))
        words = [program, f"events={path}.events", "out=/dev/null"]
        part = measured([*words, f"trace={path}.tenth"])
        ours, others = [], []
        for _ in range(ROUNDS):
            ours.append(measured([*words, f"trace={path}"]))
            others.append(measured(["vcd2fst", path, path + ".fst"]))
        best, other = min(run.processor for run in ours), min(run.processor for run in others)
        print(f"{name}: {ours[0].said}; {best:.3f} s, {os.path.getsize(path) / best / 1e6:.0f} MB/s; "
              f"vcd2fst {other / best:.1f} times (wanted {WANTED}); {ours[0].memory:.0f} MB, on a tenth {part.memory:.0f}")
        note("ccsl_events", name, "vcd2fst", processor=other / best, wanted=WANTED)


if __name__ == "__main__":
    main()
