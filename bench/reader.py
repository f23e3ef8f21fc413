"""Measures how fast the built program reads traces, beside vcd2fst and wc: it judges by one constraint that always holds.

    python3 bench/reader.py FOLDER [PROGRAM]

vcd2fst is of Debian's package gtkwave, and iverilog makes the last trace. The traces are made in the folder where it has none, of
50 MB each: two event variables; 64 wires that toggle; 5,000 nets of which 16 are bound; vectors of 64 bits; a small design run by
Icarus Verilog. A time is the processor time of a whole process, the best of so many, in turn with the others. A ratio says how
many times as long as the program vcd2fst takes, and wc -w.
"""
import os
import random
import subprocess
import sys

from figures import note
from measured import PROGRAM, measured
from traces import HEAD, TAIL, code, events, made, wire, wires, write

SIZE = 50_000_000
ROUNDS = 5

DESIGN = """
module fifo(input clk, input rst, input push, input pop, input [7:0] din, output [7:0] dout, output full, output empty);
  reg [7:0] mem [0:15]; reg [4:0] wp, rp; wire [4:0] n = wp - rp;
  assign full = n == 16; assign empty = n == 0; assign dout = mem[rp[3:0]];
  always @(posedge clk) if (rst) begin wp <= 0; rp <= 0; end else begin
    if (push && !full) begin mem[wp[3:0]] <= din; wp <= wp + 1; end
    if (pop && !empty) rp <= rp + 1;
  end
endmodule
module top;
  reg clk = 0, rst = 1, push = 0, pop = 0; reg [7:0] din = 0; wire [7:0] dout; wire full, empty;
  reg [31:0] bits = 32'hdeadbeef; event beat; reg [1:0] state = 0; wire req = state == 1, ack = state == 2;
  fifo f(clk, rst, push, pop, din, dout, full, empty);
  always #5 clk = ~clk;
  always @(posedge clk) begin
    bits <= {bits[30:0], bits[31] ^ bits[21] ^ bits[1] ^ bits[0]}; push <= bits[3]; pop <= bits[7]; din <= bits[15:8];
    if (state == 2) -> beat;
    case (state) 0: if (bits[0]) state <= 1; 1: if (bits[5]) state <= 2; default: state <= 0; endcase
  end
  initial begin $dumpfile("%s"); $dumpvars(0, top); #22 rst = 0; #%d $finish; end
endmodule
"""


def nets(path, size):
    pick = random.Random(9)
    codes, values = [code(6430 + i) for i in range(5000)], [0] * 5000
    width = [1] * 4500 + [pick.choice([8, 12, 16, 24, 32]) for _ in range(500)]
    buses = "".join(f"$var reg {width[i]} {codes[i]} v{i} [{width[i] - 1}:0] $end\n" for i in range(4500, 5000))

    def change(i):
        if i < 4500:
            values[i] ^= 1
            return f"{values[i]}{codes[i]}\n"
        return f"b{pick.getrandbits(width[i]):b} {codes[i]}\n"

    def step(time):
        some = sorted(pick.sample(range(1, 5000), 60 if time & 1 else 6))
        return f"#{5000 * time}\n{time & 1}{codes[0]}\n" + "".join(change(i) for i in some)

    write(path, HEAD + "".join(wire(codes[i], f"w{i}") for i in range(4500)) + buses + TAIL, step, size)


def vectors(path, size):
    pick = random.Random(10)
    codes = [code(i) for i in range(33)]
    buses = "".join(f"$var reg 64 {codes[i]} v{i} [63:0] $end\n" for i in range(1, 33))

    def step(time):
        some = pick.sample(range(1, 33), 8) if time & 1 else []
        return f"#{5000 * time}\n{time & 1}{codes[0]}\n" + "".join(f"b{pick.getrandbits(64):b} {codes[i]}\n" for i in some)

    write(path, HEAD + wire(codes[0], "clk") + buses + TAIL, step, size)


def simulated(path, size):
    source, program, time = path + ".v", path + ".vvp", 400_000
    for _ in range(2):
        with open(source, "w") as file:
            file.write(DESIGN % (path, time))
        subprocess.run(["iverilog", "-g2012", "-o", program, source], check=True)
        subprocess.run(["vvp", "-n", program], check=True, stdout=subprocess.DEVNULL)
        time = time * size // os.path.getsize(path)
    os.remove(program)


# the name of each trace, what makes it, the clocks, and how many times as fast as vcd2fst is wanted
TRACES = [
    ("events", events, ["a", "b"], 5),
    ("toggles", wires, [f"w{i}" for i in range(64)], 15),
    ("nets", nets, ["w0"] + [f"w{300 * i}" for i in range(1, 15)] + ["w1"], 15),
    ("vectors", vectors, ["clk"], 7),
    ("simulated", simulated, ["clk", "beat", "req", "ack"], 6),
]


def specification(path, clocks):
    """Declares the clocks, and asks nothing of them that could fail."""
    with open(path, "w") as out:
        out.write(f"ccsl 1; system {{ clock {', '.join(clocks)}; {clocks[0]} subclock {clocks[0]}; }}\n")
    return path


def main():
    folder = sys.argv[1]
    program = sys.argv[2] if len(sys.argv) > 2 else PROGRAM
    os.makedirs(folder, exist_ok=True)
    for name, make, clocks, wanted in TRACES:
        path = made(folder, name, make, SIZE)
        spec = specification(f"{folder}/{name}.ccsl", clocks)
        best = [float("inf")] * 3
        for _ in range(ROUNDS):
            for k, command in enumerate([[program, "judge", f"spec={spec}", f"trace={path}"], ["vcd2fst", path, path + ".fst"], ["wc", "-w", path]]):
                run = measured(command)
                best[k] = min(best[k], run.processor)
                said = run.said if k == 0 else said
        print(f"{name}: {said}; {best[0]:.3f} s, {os.path.getsize(path) / best[0] / 1e6:.0f} MB/s; "
              f"vcd2fst {best[1] / best[0]:.1f} times (wanted {wanted}), wc {best[2] / best[0]:.1f} times")
        note("ccsl_vcd_read", name, "vcd2fst", processor=best[1] / best[0], wanted=wanted)
        note("ccsl_vcd_read", name, "wc -w", processor=best[2] / best[0])


if __name__ == "__main__":
    main()
