"""Specifications as systems: expanded with the library, numbered, and with the totals that are limited."""
import collections

from plain_refusals import ORDER, Definitions, Faults, word_of
from plain_text import GREATEST, Parser, Refused, refuse

LIBRARY = b'''ccsl 1;
relation alternates(clock a, clock b) {
  define next = a delay 1;
  a precedes b;
  b precedes next;
}
expression periodic(clock c, number n) = (c await n) then periodic(c, n);
expression skip(clock c, number n) =
  if n = 0 use c else (never upto (c await n)) then c;
expression filter_by(clock c, word w) =
  if ended w use never
  else if head w use (c await 1) then filter_by(c, tail w)
  else (never upto c) then filter_by(c, tail w);
system { }
'''


class System:
    def __init__(self, text):
        library = Definitions(Parser(LIBRARY).file()[0])
        parsed = Parser(text).file()
        faults = Faults(parsed, library)
        if faults.found:
            at, which = min(faults.found)
            refuse(ORDER[which], at)
        self.known, self.lines = faults.definitions, parsed[1]
        self.cells_known, self.sizes_known = {}, {}
        self.declared = [name for line in self.lines if line[0] == 'clocks' for _, name in line[1]]
        self.defined = [line[1][1] for line in self.lines if line[0] == 'define']
        hidden, constraints, cells = self.sizes(self.lines)
        hidden -= len(self.defined)
        for what, total, most in [('clocks', len(self.declared) + len(self.defined) + hidden, 1024), ('constraints', constraints, 4096),
                                  ('cells', cells, 32768)]:
            if total > most:
                raise Refused(f'{min(total, GREATEST)} {what}, at most {most}')
        self.cells = cells
        self.expand()

    def sizes(self, lines):
        """How many clocks the lines define, how many constraints they give, and the cells of both."""
        total = [0, 0, 0]
        for line in lines:
            if line[0] == 'define':
                more = 1, 0, self.cells_of(line[2], None)
            elif line[0] == 'constraint':
                more = 0, 1, 2
            elif line[0] == 'call':
                name = line[1][1]
                if name not in self.sizes_known:
                    self.sizes_known[name] = self.sizes(self.known.of[name][4])
                more = self.sizes_known[name]
            else:
                continue
            total = [one + other for one, other in zip(total, more)]
        return total

    def cells_of(self, tree, own):
        form = tree[0]
        if form in ('name', 'never'):
            return 1
        if form == 'call':
            number = self.known.of[tree[1][1]][0]
            return 0 if number == own else self.cells_of_group(number)
        if form == 'if':
            return 1 + max(self.cells_of(tree[2], own), self.cells_of(tree[3], own))
        if form == 'delayed':
            return 2 + -(-tree[2][1] // 64) + self.cells_of(tree[1], own) + self.cells_of(tree[3], own)
        if form != 'binary':
            return 1 + self.cells_of(tree[1], own)
        sides = [self.cells_of(side, own) for side in tree[2:]]
        return 1 + max(sides) if tree[1] == 'then' else (2 if tree[1] in ('inf', 'sup') else 1) + sum(sides)

    def cells_of_group(self, number):
        if number not in self.cells_known:
            members = [found for found in self.known.of.values() if found[0] == number]
            self.cells_known[number] = 1 + max(len(kinds) for _, _, kinds, _, _ in members) + max(
                self.cells_of(body, number) for *_, body in members)
        return self.cells_known[number]

    def expand(self):
        self.names = self.declared + self.defined
        values = {name: number for number, name in enumerate(self.names)}
        self.definitions, self.hidden, self.constraints = [], [], []
        self.lines_under(self.lines, values, '')
        self.definitions += self.hidden
        self.items = len(self.definitions) + len(self.constraints)

    def lines_under(self, lines, values, path):
        for place, line in enumerate(lines):
            if line[0] == 'define' and not path:
                self.definitions.append((line[2], values))
            elif line[0] == 'define':
                values[line[1][1]] = len(self.names)
                self.names.append(f'{path}.{line[1][1]}')
                self.hidden.append((line[2], dict(values)))
            elif line[0] == 'constraint':
                _, kind, bound, left, right = line
                self.constraints.append((kind, bound and bound[1], values[left[1]], values[right[1]], path))
            elif line[0] == 'call':
                name = line[1][1]
                inner = self.arguments(name, line[2], values)
                self.lines_under(self.known.of[name][4], inner, f'{path}.{name}@{place}' if path else f'{name}@{place}')

    def arguments(self, name, arguments, values):
        return dict(zip(self.known.of[name][3], (self.value(argument, values) for argument in arguments)))

    def value(self, argument, values):
        if argument[0] != 'term':
            return word_value(argument, values)
        (_, form, _, value), *more = argument[1]
        return values[value] if form == 'name' and not more else number_value(argument[1], values)

    def item(self, number):
        if number < len(self.definitions):
            return f'definition {self.names[len(self.declared) + number]}'
        label = self.constraints[number - len(self.definitions)][4]
        return f'constraint {number - len(self.definitions)}' + (f' of {label}' if label else '')

    def checked(self):
        return (f'check: accepted, declared {len(self.declared)}, defined {len(self.definitions)}, constraints {len(self.constraints)}, '
                f'cells {self.cells}')


def forms(system):
    """How often each relation stands in the constraints, and each form of expression in the definitions and, once a body, in what they call."""
    count, called = collections.Counter(kind for kind, *_ in system.constraints), set()
    waiting = [(tree, None) for tree, _ in system.definitions]
    while waiting:
        tree, group = waiting.pop()
        form = tree[1] if tree[0] == 'binary' else f'if {tree[1][0]}' if tree[0] == 'if' else tree[0]
        waiting += [(part, group) for part in parts(tree)]
        if form == 'call':
            number, _, _, _, body = system.known.of[tree[1][1]]
            form = 'call of itself' if number == group else tree[1][1] if tree[1][1] in LIBRARY.decode() else 'own call'
            waiting += [(body, number)] if tree[1][1] not in called else []
            called.add(tree[1][1])
        count[form] += 1
    return count


def parts(tree):
    """The expressions that an expression is made of."""
    form = tree[0]
    return tree[2:] if form in ('binary', 'if') else tree[1::2] if form == 'delayed' else tree[1:2] if form in ('delay', 'await', 'filter') else ()


def number_value(term, values):
    total = 0
    for sign, kind, _, value in term:
        value = value if kind == 'num' else values[value]
        total = min(max(total + value if sign == '+' else total - value, 0), GREATEST)
    return total


def word_value(word, values):
    kind, _, value = word
    if kind == 'text':
        return word_of(value), 0
    return after(*values[value]) if kind == 'tail' else values[value]


def after(word, offset):
    prefix, period = word
    length = len(prefix) + len(period)
    if period:
        return word, len(prefix) if offset + 1 == length else offset + 1
    return word, min(offset + 1, length)


def letter(word, place):
    prefix, period = word
    if place < len(prefix):
        return prefix[place] == '1'
    return bool(period) and period[(place - len(prefix)) % len(period)] == '1'


def check(text):
    try:
        return 0, System(text).checked()
    except Refused as fault:
        return 3, f'spec: {fault}'
