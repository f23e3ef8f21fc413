"""Draws specifications that use every form of the grammar. Each choice goes wrong with a given chance, and texts may be damaged."""
import re

from plain_system import System
from plain_text import BINARY, RESERVED, Refused

RELATIONS = ['subclock', 'coincides', 'excludes', 'precedes', 'precedes weakly']
WORDS = ['"(10)"', '"01"', '"1(0)"', '"0(110)"', '"101"', '"(1)"', '"00(1)"', '"110(01)"']
BAD_WORDS = ['""', '"01(2)"', '"("', '"()"', '"(1)1"', '"(1"', '"1)"', '"10 "']
NAMES = ['zz', 'late', 'a', 'q0', 'x0', 'R0', 'E0', 'periodic', 'alternates']
TOKENS = [*sorted(RESERVED), *'(){},;=<+-', *NAMES, '0', '1', '2', '4294967296', *WORDS[:2]]
BYTES = b'(){},;=<+-"/01 a_\n\r\t\x7f\x80\xff'


class Text:
    """A specification with at most so many declared clocks, and so many lines behind them."""

    def __init__(self, draw, wrong, clocks=3, lines=5):
        self.draw, self.wrong, self.version, self.clocks, self.lines = draw, wrong, draw.choice([1, 2]), clocks, lines
        self.expressions = {'periodic': ['clock', 'number'], 'skip': ['clock', 'number'], 'filter_by': ['clock', 'word']}
        self.relations, self.own = {'alternates': ['clock', 'clock']}, {}

    def errs(self):
        return self.draw.random() < self.wrong

    def file(self):
        lines = [f'ccsl {self.version if not self.errs() else 3};']
        for number in range(self.draw.randint(0, 3)):
            lines.append(self.draw.choice([self.relation, self.group])(number))
        names = {'clock': list('abcdefgh'[:self.draw.randint(1, self.clocks)]), 'number': [], 'word': []}
        clocks = names['clock'] + (['a'] if self.errs() else [])
        body = [self.line(names, f'q{place}') for place in range(self.draw.randint(0, self.lines))]
        return ' '.join([*lines, 'system {', f'clock {", ".join(clocks)};', *body, '}'])

    def many(self):
        """A system of many definitions and no constraints."""
        names = {'clock': list('abcdef'), 'number': [], 'word': []}
        groups = [self.group(number) for number in range(self.draw.randint(0, 2))]
        lines = [self.definition(names, f'q{place}') for place in range(self.draw.randint(6, 12))]
        return ' '.join([f'ccsl {self.version};', *groups, 'system {', 'clock a, b, c, d, e, f;', *lines, '}'])

    def head(self, name):
        kinds = ['clock', *(self.draw.choice(['clock', 'number', 'word']) for _ in range(self.draw.randint(0, 2) if not self.errs() else 8))]
        names = {'clock': [], 'number': [], 'word': []}
        for place, kind in enumerate(kinds):
            names[kind].append(f'p{place if not self.errs() else 0}')
        return name if not self.errs() else self.draw.choice(NAMES), kinds, names

    def shown(self, kinds):
        return ', '.join(f'{kind} p{place if not self.errs() else 0}' for place, kind in enumerate(kinds))

    def relation(self, number):
        name, kinds, names = self.head(f'R{number}')
        body = ' '.join(self.line(names, f'x{place}') for place in range(self.draw.randint(1, 3)))
        self.relations[name] = kinds
        return f'relation {name}({self.shown(kinds)}) {{ {body} }}'

    def group(self, number):
        heads = [self.head(f'E{number}{letter}') for letter in 'ab'[:self.draw.randint(1, 2)]]
        self.own = {name: kinds for name, kinds, _ in heads}
        members = [f'{name}({self.shown(kinds)}) = {self.expression(names, self.draw.randint(1, 3), True, False)}' for name, kinds, names in heads]
        self.expressions.update(self.own)
        self.own = {}
        return f'expression {" and ".join(members)};'

    def line(self, names, name):
        form = self.draw.random()
        if form < 0.35:
            return self.definition(names, name)
        if form < 0.6:
            return f'{self.call(names, self.relations)};'
        within = ['precedes within 1', 'precedes within 2'] if self.version == 2 or self.errs() else []
        relation = self.draw.choice(RELATIONS + within) if not self.errs() else 'precedes within 0'
        return f'{self.name(names, "clock")} {relation} {self.name(names, "clock")};'

    def definition(self, names, name):
        text = f'define {name} = {self.expression(names, self.draw.randint(0, 2), False, False)};'
        names['clock'].append(name)
        return text

    def name(self, names, kind):
        every = NAMES + [name for of_kind in names.values() for name in of_kind]
        return self.draw.choice(every if self.errs() or not names[kind] else names[kind])

    def call(self, names, known):
        called = self.draw.choice(list(known)) if not self.errs() else self.draw.choice(NAMES)
        kinds = known.get(called, ['clock']) + (['clock'] if self.errs() else [])
        return f'{called}({", ".join(self.argument(names, kind) for kind in kinds)})'

    def argument(self, names, kind):
        kind = self.draw.choice(list(names)) if self.errs() else kind
        return self.name(names, kind) if kind == 'clock' else self.term(names) if kind == 'number' else self.word(names)

    def term(self, names):
        first, more = self.prim(names), self.draw.random() < 0.3
        return f'{first} {self.draw.choice("+-")} {self.term(names)}' if more else first

    def prim(self, names):
        if names['number'] and self.draw.random() < 0.5 or self.errs():
            return self.name(names, 'number')
        return self.draw.choice(['0', '1', '2', '3', '02', '4294967295'])

    def word(self, names):
        if names['word'] and self.draw.random() < 0.6 or self.errs():
            return self.draw.choice(['', 'tail ']) + self.name(names, 'word')
        return self.draw.choice(WORDS if not self.errs() else BAD_WORDS)

    def test(self, names):
        if names['word'] and self.draw.random() < 0.7:
            return f'{self.draw.choice(["head", "ended"])} {self.name(names, "word")}'
        return f'{self.term(names)} {self.draw.choice("=<")} {self.term(names)}'

    def expression(self, names, depth, tail, guarded):
        form = self.draw.choice(['alone', 'then', 'then', 'then', 'if', *(['then', 'if'] if tail else []), 'binary', 'binary', 'binary', 'number',
                                 'filter', 'sampled', 'delayed'])
        if form == 'if' and depth > 0:
            branches = [self.expression(names, depth - 1, tail, guarded) for _ in range(2)]
            return f'if {self.test(names)} use {branches[0]} else {branches[1]}'
        if form in ('alone', 'if'):
            return self.operand(names, depth, tail, guarded)
        mortal = form == 'then' and self.draw.random() < 0.7
        left = self.mortal(names, depth + 1) if mortal else self.operand(names, depth, False, False)
        if form == 'number':
            return f'{left} {self.draw.choice(["delay", "await"])} {self.term(names)}'
        if form == 'filter':
            return f'{left} filter {self.word(names)}'
        operator = {'then': ['then'], 'binary': sorted(BINARY - {'then'}), 'sampled': ['sampled on', 'sampled weakly on'],
                    'delayed': ['delayed 1 on', 'delayed 2 on', 'delayed 65 on', *(['delayed 0 on', 'delayed 4097 on'] if self.errs() else [])]}[form]
        if form == 'binary' and (self.version == 2 or self.errs()):
            operator = operator + ['upto weakly']
        then = tail and form == 'then'
        return f'{left} {self.draw.choice(operator)} {self.operand(names, depth, then, then)}'

    def mortal(self, names, depth):
        """An operand that is often soon dead."""
        if depth > 0 and self.draw.random() < 0.6:
            operator = self.draw.choice(['union', 'inter', 'minus', 'inf', 'sup', 'sup', 'then', 'sampled on', 'sampled weakly on', 'delayed 2 on'])
            right = self.name(names, 'clock') if self.draw.random() < 0.4 else self.mortal(names, depth - 1)
            return f'({self.mortal(names, depth - 1)} {operator} {right})'
        end = self.draw.choice(['await 1', 'await 2', 'filter "01"', 'filter "110"', f'upto {self.name(names, "clock")}'])
        return f'({self.name(names, "clock")} {end})'

    def operand(self, names, depth, tail, guarded):
        form = self.draw.random()
        if form < 0.3 and depth > 0:
            return f'({self.expression(names, depth - 1, tail, guarded)})'
        if form < 0.45:
            own = self.own and (guarded and self.draw.random() < 0.7 or tail and self.wrong and self.draw.random() < 0.6 or self.errs())
            return self.call(names, self.own if own else self.expressions)
        return 'never' if form < 0.5 else self.name(names, 'clock')


def accepted(draw, most, clocks=3, lines=5):
    """A drawn specification that is accepted and has at most so many clocks, and its system."""
    while True:
        text = Text(draw, 0, clocks, lines).file()
        try:
            system = System(text.encode())
        except Refused:
            continue
        if len(system.names) <= most:
            return text, system


def spaced(draw, text):
    """The same tokens with other white space, or a comment, between some of them."""
    return re.sub(' ', lambda _: draw.choice([' ', ' ', ' ', '\n', '\t', '\r\n', ' // "a" /\n']), text)


def damaged(draw, text):
    """The text with a token or a byte changed, dropped, doubled or swapped."""
    by_token = draw.random() < 0.5
    parts = re.findall(r'"[^"]*"|\w+|\S', text) if by_token else [text[place:place + 1] for place in range(len(text))]
    place, other = draw.randrange(len(parts)), draw.randrange(len(parts))
    strange = draw.choice(TOKENS if by_token else [chr(byte) for byte in BYTES])
    change = draw.choice(['drop', 'double', 'swap', 'replace', 'insert', 'cut'])
    if change == 'swap':
        parts[place], parts[other] = parts[other], parts[place]
    elif change == 'cut':
        parts = parts[:place]
    else:
        here = parts[place]
        parts[place:place + 1] = {'drop': [], 'double': [here, here], 'replace': [strange], 'insert': [strange, here]}[change]
    return (' ' if by_token else '').join(parts)
