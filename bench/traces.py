"""The traces that more than one program measures: made in a folder where it has none, of so many bytes each."""
import os
import random

HEAD = "$timescale 1ns $end\n$scope module top $end\n"
TAIL = "$upscope $end\n$enddefinitions $end\n"


def code(number):
    """The code of a number, as simulators give them: base 94, the least digit first."""
    number += 1
    text = ""
    while number:
        number -= 1
        text += chr(33 + number % 94)
        number //= 94
    return text


def wire(code_of, name):
    return f"$var wire 1 {code_of} {name} $end\n"


def write(path, header, step, size):
    """A trace of about so many bytes: the header, and the text of each step."""
    with open(path, "w", newline="\n") as file:
        file.write(header)
        written, time = len(header), 0
        while written < size:
            text = step(time)
            file.write(text)
            written += len(text)
            time += 1


def events(path, size):
    """Two event variables, with short tokens."""
    pick = random.Random(7)
    steps = ["1!\n", '1"\n', '1!\n1"\n']
    header = HEAD + '$var event 1 ! a $end\n$var event 1 " b $end\n' + TAIL
    write(path, header, lambda time: f"#{time}\n{steps[pick.randrange(3)]}", size)


def wires(path, size):
    """64 wires, each of which toggles at each time with a chance of one in four."""
    pick = random.Random(8)
    codes, values = [code(i) for i in range(64)], [0] * 64

    def step(time):
        out, mask = [f"#{10 * time + 10}\n"], pick.getrandbits(64) & pick.getrandbits(64)
        for i in range(64):
            if mask >> i & 1:
                values[i] ^= 1
                out.append(f"{values[i]}{codes[i]}\n")
        return "".join(out)

    first = "#0\n$dumpvars\n" + "".join(f"0{code}\n" for code in codes) + "$end\n"
    write(path, HEAD + "".join(wire(codes[i], f"w{i}") for i in range(64)) + TAIL + first, step, size)


def made(folder, name, make, size):
    """The path of a trace, which is made where it is not there."""
    path = os.path.join(folder, f"{name}.vcd")
    if not os.path.exists(path):
        make(path, size)
    return path
