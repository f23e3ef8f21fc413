"""Measures the solver and the choice of steps in the built program beside z3 and picosat, in one run.

    python3 bench/solver.py [CLOCKS STEPS [PROGRAM]]  24 clocks and 1,000 steps, if nothing else is said

A chain is simulated, states and trace with it. Pigeons in fewer holes are a system that has no step: `simulate` refutes its first one
and writes the certificate, which `certify` checks. Needs Debian's z3 and picosat. All times are processor times of whole processes, so
a loaded machine counts little.
"""
import os
import subprocess
import sys
import tempfile

from figures import note
from measured import PROGRAM, TOP, best as least, measured

sys.path.append(f"{TOP}/tests")
from seeded_words import seeded_words

ROUNDS = 10


class Specification:
    """A specification in a folder of its own, with the files of its runs."""

    def __init__(self, program, text):
        self.program, self.folder = program, tempfile.TemporaryDirectory()
        with open(f"{self.folder.name}/spec", "w") as file:
            file.write(text)
        self.files = [f"{key}={self.folder.name}/{key}" for key in ("spec", "trace", "cert")]

    def simulate(self, steps, policy="min", rounds=1):
        """The best of so many simulations."""
        return least([self.program, "simulate", *self.files, f"policy={policy}", "seed=42", f"steps={steps}"], rounds)

    def certify(self, rounds):
        return least([self.program, "certify", *self.files], rounds)

    def lines(self, name):
        with open(f"{self.folder.name}/{name}") as file:
            return file.read().splitlines()

    def ticks(self):
        """How many clocks ticked in the steps of the trace."""
        return sum(line.startswith("1") for line in self.lines("trace"))


def chain(clocks):
    """Clocks of which each alternates with the next one."""
    names = [f"c{number}" for number in range(clocks)]
    pairs = " ".join(f"alternates({one}, {other});" for one, other in zip(names, names[1:]))
    return f"ccsl 1; system {{ clock {', '.join(names)}; {pairs} }}\n"


def union(names):
    return names[0] if len(names) == 1 else f"({union(names[:-1])}) union {names[-1]}"


def crowd(holes):
    """Where one pigeon sits all sit, each alone in a hole, and they are one more than there are holes: so no clock can tick."""
    sits = [[f"p{pigeon}_{hole}" for hole in range(holes)] for pigeon in range(holes + 1)]
    lines = [f"define u{pigeon} = {union(places)};" for pigeon, places in enumerate(sits)]
    lines += [f"u{pigeon} coincides u{pigeon + 1};" for pigeon in range(holes)]
    for pigeon, places in enumerate(sits):
        lines += [f"{sits[other][hole]} excludes {place};" for other in range(pigeon) for hole, place in enumerate(places)]
    return f"ccsl 1; system {{ clock {', '.join(sum(sits, []))}; {' '.join(lines)} }}\n"


class Z3:
    """One z3 process with its text interface."""

    def __init__(self, named):
        self.named = named
        self.process = subprocess.Popen(
            ["z3", "-in"], stdin=subprocess.PIPE, stdout=subprocess.PIPE, text=True)
        for clock in range(named):
            self.tell(f"(declare-const x{clock} Bool)")

    def tell(self, line):
        self.process.stdin.write(line + "\n")

    def is_sat(self, question):
        self.tell(question)
        self.process.stdin.flush()
        return self.process.stdout.readline().strip() == "sat"

    def model(self):
        self.tell("(get-value (" + " ".join(f"x{clock}" for clock in range(self.named)) + "))")
        self.process.stdin.flush()
        values = []
        while len(values) < self.named:
            parts = self.process.stdout.readline().replace("(", " ").replace(")", " ").split()
            values += [part == "true" for part in parts if part in ("true", "false")]
        return values

    def close(self):
        """Ends it, and answers the seconds of processor time that it took."""
        self.tell("(exit)")
        self.process.stdin.close()
        _, status, used = os.wait4(self.process.pid, 0)
        self.process.returncode = os.waitstatus_to_exitcode(status)
        return used.ru_utime + used.ru_stime


def formulas(clocks, counts):
    """The conditions of a step of clocks of which each alternates with the next one."""
    for clock in range(clocks - 1):
        later = clocks + clock
        yield f"(= x{later} x{clock})" if counts[clock] > 0 else f"(not x{later})"
        if counts[clock] == counts[clock + 1]:
            yield f"(not x{clock + 1})"
        if counts[clock + 1] == counts[later]:
            yield f"(not x{later})"


def literal(clock, value):
    return f"x{clock}" if value else f"(not x{clock})"


def best(z3, clocks, policy, words, ask_all):
    """The best set. With `ask_all` one question for each clock, else one where the last model does not say it."""
    assert z3.is_sat("(check-sat)")
    model = z3.model()
    fixed = []
    for clock in sorted(range(clocks), key=lambda clock: (words[clock], clock)):
        wish = {"min": False, "max": True, "seeded": words[clock] % 2 == 1}[policy]
        if ask_all or model[clock] != wish:
            if z3.is_sat("(check-sat-assuming (" + " ".join(fixed + [literal(clock, wish)]) + "))"):
                model = z3.model()
        fixed.append(literal(clock, model[clock]))
    return model


def z3_chain(clocks, steps, policy, ask_all):
    z3 = Z3(clocks + clocks - 1)
    words = seeded_words(42)
    counts = [0] * z3.named
    for _ in range(steps):
        z3.tell("(push 1)")
        for formula in formulas(clocks, counts):
            z3.tell(f"(assert {formula})")
        z3.tell("(assert (or " + " ".join(f"x{clock}" for clock in range(clocks)) + "))")
        model = best(z3, clocks, policy, [next(words) for _ in range(clocks)], ask_all)
        z3.tell("(pop 1)")
        counts = [count + tick for count, tick in zip(counts, model)]
    return sum(counts[:clocks]), z3.close()


def pigeons(holes):
    """The clauses that a pigeon more than there are holes sit each alone in a hole."""
    sits = [[holes * pigeon + hole + 1 for hole in range(holes)] for pigeon in range(holes + 1)]
    clauses = list(sits)
    for pigeon in range(holes + 1):
        for other in range(pigeon):
            clauses += [[-sits[other][hole], -sits[pigeon][hole]] for hole in range(holes)]
    lines = [f"p cnf {holes * (holes + 1)} {len(clauses)}"]
    return "\n".join(lines + [" ".join(map(str, clause + [0])) for clause in clauses]) + "\n"


def chains(program, clocks, steps):
    spec = Specification(program, chain(clocks))
    for policy in ("min", "max", "seeded"):
        start = spec.simulate(0, policy, ROUNDS).processor
        ours = (spec.simulate(10 * steps, policy, 3).processor - start) / 10
        spec.simulate(steps, policy)
        ticks = spec.ticks()
        few_ticks, few = z3_chain(clocks, steps, policy, False)
        all_ticks, each = z3_chain(clocks, steps, policy, True)
        assert ticks == few_ticks == all_ticks
        print(f"{steps} steps of {clocks} clocks under {policy}: {1000 * ours:.1f} ms; z3 {1000 * each:.0f} ms with a question for each clock"
              f" ({each / ours:.0f} times as long), {1000 * few:.0f} ms with as few as can be ({few / ours:.0f} times)")
        note("ccsl_policy", f"a chain of {clocks} clocks, {policy}", "z3, a question a clock", processor=each / ours)
        note("ccsl_policy", f"a chain of {clocks} clocks, {policy}", "z3, few questions", processor=few / ours)


def holes(program):
    for number in (6, 7, 8):
        with tempfile.NamedTemporaryFile("w", suffix=".cnf") as file:
            file.write(pigeons(number))
            file.flush()
            theirs = least(["picosat", file.name], ROUNDS).processor
        spec = Specification(program, crowd(number))
        start = spec.simulate(0, rounds=ROUNDS).processor
        refuted = spec.simulate(1, rounds=ROUNDS)
        assert refuted.status == 8
        ours, checked = max(refuted.processor - start, 0.001), max(spec.certify(ROUNDS).processor - start, 0.001)
        print(f"{number + 1} pigeons in {number} holes: {1000 * ours:.0f} ms, {len(spec.lines('cert'))} lines, checked in {1000 * checked:.0f} ms; "
              f"picosat {1000 * theirs:.0f} ms")
        note("ccsl_solve", f"{number + 1} pigeons in {number} holes", "picosat", processor=theirs / ours)


def main():
    clocks, steps = (int(word) for word in sys.argv[1:3]) if len(sys.argv) > 2 else (24, 1000)
    program = sys.argv[3] if len(sys.argv) > 3 else PROGRAM
    chains(program, clocks, steps)
    holes(program)


main()
