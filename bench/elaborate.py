"""Measures how long elaboration takes in the built program, beside lexing and parsing the same text.

    python3 bench/elaborate.py [PROGRAM]

`check` of a text does both. Of the same text with one parenthesis behind it, which is a fault of syntax at its end, it does the
second alone. All times are processor times of whole processes, the best of several.
"""
import sys
import tempfile

from figures import note
from measured import PROGRAM, best, filled

# a mebibyte, but for the parenthesis
SIZE = (1 << 20) - 1
ROUNDS = 7


def expressions(system):
    """Definitions of expressions, each of which calls one before it; none has a level above 8."""
    return filled("ccsl 1;\n",
                  lambda i: f"expression e{i}(clock c, number n) = "
                  + (f"e{i - 1}(c, n)" if i % 8 else "c delay n") + ";\n",
                  system, SIZE)


def relations(calls):
    """Relations of eight levels, each of which calls the one before it so often."""
    line = lambda level: f"  r{level - 1}(a, b);\n" if level else "  a precedes b;\n"
    bodies = [f"relation r{level}(clock a, clock b) {{\n" + line(level) * calls + "}\n" for level in range(8)]
    return "ccsl 1;\n" + "".join(bodies) + "system { clock a, b; r7(a, b); }\n"


def expanded():
    """Calls of a relation that hides a clock, as many as there may be clocks."""
    calls = "  hide(a);\n" * 1022
    return f"ccsl 1;\nrelation hide(clock a) {{ define b = a delay 1; a precedes b; }}\nsystem {{ clock a, b;\n{calls}}}\n"


def balanced(leaves):
    """An expression of so many leaves."""
    if leaves == 1:
        return "a"
    left, right = balanced(leaves // 2), balanced(leaves - leaves // 2)
    return "a union a" if leaves == 2 else f"({left}) union ({right})"


def large(leaves, calls):
    """Calls of a relation that hides a clock with a large definition."""
    lines = "  hide(a);\n" * calls
    return f"ccsl 1;\nrelation hide(clock a) {{ define b = {balanced(leaves)}; }}\nsystem {{ clock a;\n{lines}}}\n"


def nest():
    """A nest of relations of eight levels, each of which calls the one before it as often as fits."""
    line = lambda level: f"  r{level - 1}(a, b);\n" if level else "  a precedes b;\n"
    room = SIZE // 8 - 60
    bodies = []
    for level in range(8):
        bodies.append(f"relation r{level}(clock a, clock b) {{\n" + line(level) * (room // len(line(level))) + "}\n")
    return "ccsl 1;\n" + "".join(bodies) + "system { clock a, b; r7(a, b); }\n"


def clocks():
    """A system of clocks, each defined over the one before it."""
    return filled("ccsl 1;\nsystem {\n  clock x0;\n",
                  lambda i: f"  define x{i + 1} = x{i} delay 1;\n",
                  "}\n", SIZE)


def nested():
    """A system of expressions that nest as deep as an expression may."""
    deep = "(" * 127 + "a" + " union b)" * 127
    return filled("ccsl 1;\nsystem {\n  clock a, b;\n", lambda i: f"  define y{i} = {deep};\n", "}\n", SIZE)


def repeated():
    """A system that declares one clock over and over."""
    return filled("ccsl 1;\nsystem {\n", lambda i: "  clock a;\n", "}\n", SIZE)


TEXTS = [
    ("a mebibyte of expressions", expressions("system { clock a; }\n")),
    ("a nest of relations as long as a text may be, refused", nest()),
    ("a nest of relations that is refused", relations(8000)),
    ("a nest of relations that is expanded", relations(2)),
    ("a mebibyte of clocks, refused", clocks()),
    ("a mebibyte of deep expressions, refused", nested()),
    ("one clock declared over and over, refused", repeated()),
    ("a thousand hidden clocks", expanded()),
    ("a thousand hidden clocks of 8,000 leaves each, refused", large(8000, 1000)),
    ("a thousand hidden clocks of 60,000 leaves each, refused", large(60000, 1000)),
]


def checked(program, text):
    """The best of some runs of `check` on a text."""
    with tempfile.NamedTemporaryFile("w", suffix=".ccsl") as file:
        file.write(text)
        file.flush()
        return best([program, "check", f"spec={file.name}"], ROUNDS)


def main():
    program = sys.argv[1] if len(sys.argv) > 1 else PROGRAM
    start = checked(program, "ccsl 1; system { clock a; }\n").processor
    for name, text in TEXTS:
        whole, parsed = checked(program, text), checked(program, text + ")")
        parse = max(parsed.processor - start, 0.001)
        alone = max(whole.processor - parsed.processor, 0.001)
        print(f"{name}: {len(text)} bytes, {whole.said}; parse {parse * 1000:.0f} ms, elaborate {alone * 1000:.0f} ms, "
              f"ratio {alone / parse:.2f}, at most {whole.memory:.0f} MB")
        note("ccsl_elaborate", name, "parsing it", processor=parse / alone)


if __name__ == "__main__":
    main()
