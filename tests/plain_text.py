"""Specifications as texts, read slowly: the tokens and the tree, or the first fault of either."""
import re

RESERVED = frozenset(
    'ccsl relation expression and system clock number word define if use else never union inter minus inf sup delay await filter '
    'upto sampled weakly on delayed then tail head ended subclock coincides excludes precedes within from'.split())
BINARY = frozenset('union inter minus inf sup upto then'.split())
RELATIONS = frozenset('subclock coincides excludes precedes'.split())
GREATEST = 4294967295


class Refused(Exception):
    """A refusal, with the text that is printed of it."""


def refuse(what, at):
    raise Refused(f'{what} at byte {at}')


def tokens(text):
    """Tokens as (start, end, kind, value); the kind of a symbol or reserved word is itself."""
    found, at = [], 0
    while at < len(text):
        rest = text[at:]
        blank = re.match(rb'[\t\n\r ]+|//[^\n]*', rest)
        if blank:
            at += blank.end()
            continue
        name, number, quoted = (re.match(form, rest) for form in (rb'[A-Za-z_][A-Za-z0-9_]*', rb'[0-9]+', rb'"[ !#-~]*"'))
        if name:
            end, value = at + name.end(), name.group().decode()
            if end - at > 64:
                refuse('name too long', at)
            found.append((at, end, value if value in RESERVED else 'name', value))
        elif number:
            end, value = at + number.end(), int(number.group())
            if value > GREATEST:
                refuse('number too large', at)
            found.append((at, end, 'num', value))
        elif quoted:
            end = at + quoted.end()
            found.append((at, end, 'text', quoted.group()[1:-1].decode()))
        elif rest[:1] == b'"':
            refuse('open text', at)
        elif rest[:1] in b'(){},;=<+-':
            end = at + 1
            found.append((at, end, rest[:1].decode(), None))
        else:
            refuse('bad byte', at)
        at = end
    return found


class Parser:
    """Trees are tuples that begin with their form; a spot is a place and the name there."""

    def __init__(self, text):
        self.tokens, self.next, self.version = tokens(text), 0, 1

    def kind(self):
        return self.tokens[self.next][2] if self.next < len(self.tokens) else None

    def at(self):
        if self.next < len(self.tokens):
            return self.tokens[self.next][0]
        return self.tokens[-1][1] if self.tokens else 0

    def take(self, *kinds):
        if self.kind() not in kinds:
            refuse('syntax', self.at())
        self.next += 1
        return self.tokens[self.next - 1]

    def had(self, kind):
        if self.kind() != kind:
            return False
        self.next += 1
        return True

    def spot(self):
        at, _, _, name = self.take('name')
        return at, name

    def list_of(self, member, separator):
        found = [member()]
        while self.had(separator):
            found.append(member())
        return found

    def file(self):
        self.take('ccsl')
        at = self.at()
        self.version = self.take('num')[3]
        if self.version not in (1, 2):
            refuse('syntax', at)
        self.take(';')
        definitions = []
        while self.kind() in ('relation', 'expression'):
            definitions.append(self.relation() if self.had('relation') else self.group())
        self.take('system')
        self.take('{')
        lines = []
        while not self.had('}'):
            lines.append(self.system_line())
        if self.next < len(self.tokens):
            refuse('syntax', self.at())
        return definitions, lines

    def head(self):
        name = self.spot()
        self.take('(')
        params = [] if self.kind() == ')' else self.list_of(lambda: (self.take('clock', 'number', 'word')[2], self.spot()), ',')
        self.take(')')
        return name, params

    def relation(self):
        name, params = self.head()
        self.take('{')
        lines = [self.line()]
        while not self.had('}'):
            lines.append(self.line())
        return 'relation', name, params, lines

    def group(self):
        self.take('expression')
        members = self.list_of(self.member, 'and')
        self.take(';')
        return 'group', members

    def member(self):
        name, params = self.head()
        self.take('=')
        return name, params, self.expression(1)

    def system_line(self):
        if self.had('clock'):
            names = self.list_of(self.spot, ',')
            self.take(';')
            return 'clocks', names
        return self.line()

    def line(self):
        if self.had('define'):
            name = self.spot()
            self.take('=')
            found = 'define', name, self.expression(1)
        else:
            name = self.spot()
            if self.kind() == '(':
                found = 'call', name, self.arguments()
            else:
                found = self.constraint(name)
        self.take(';')
        return found

    def constraint(self, left):
        kind, bound = self.take(*RELATIONS)[2], None
        if kind == 'precedes' and self.had('weakly'):
            kind = 'precedes weakly'
        elif kind == 'precedes' and self.version == 2 and self.had('within'):
            kind = 'precedes within'
            at, _, _, value = self.take('num')
            bound = at, value
        return 'constraint', kind, bound, left, self.spot()

    def expression(self, level):
        if level == 129 and self.kind() in ('if', 'name', 'never', '('):
            refuse('too deep', self.at())
        if self.had('if'):
            test = self.test()
            self.take('use')
            yes = self.expression(level + 1)
            self.take('else')
            return 'if', test, yes, self.expression(level + 1)
        left, kind = self.operand(level), self.kind()
        if kind in BINARY:
            self.next += 1
            if kind == 'upto' and self.version == 2 and self.had('weakly'):
                kind = 'upto weakly'
            return 'binary', kind, left, self.operand(level)
        if kind in ('delay', 'await'):
            self.next += 1
            return kind, left, self.term()
        if self.had('filter'):
            return 'filter', left, self.word()
        if self.had('sampled'):
            op = 'sampled weakly' if self.had('weakly') else 'sampled'
            self.take('on')
            return 'binary', op, left, self.operand(level)
        if self.had('delayed'):
            at, _, _, value = self.take('num')
            self.take('on')
            return 'delayed', left, (at, value), self.operand(level)
        return left

    def operand(self, level):
        if self.had('never'):
            return ('never',)
        if self.had('('):
            found = self.expression(level + 1)
            self.take(')')
            return found
        name = self.spot()
        return ('call', name, self.arguments()) if self.kind() == '(' else ('name', name)

    def arguments(self):
        self.take('(')
        found = [] if self.kind() == ')' else self.list_of(self.argument, ',')
        self.take(')')
        return found

    def argument(self):
        return self.word() if self.kind() in ('text', 'tail') else ('term', self.term())

    def word(self):
        at, _, kind, value = self.take('text', 'name', 'tail')
        return ('tail', *self.spot()) if kind == 'tail' else (kind, at, value)

    def term(self):
        found, sign = [], '+'
        while True:
            at, _, kind, value = self.take('num', 'name')
            found.append((sign, kind, at, value))
            sign = self.kind()
            if sign not in ('+', '-'):
                return found
            self.next += 1

    def test(self):
        if self.kind() in ('head', 'ended'):
            return self.take('head', 'ended')[2], self.spot()
        left = self.term()
        kind = self.take('=', '<')[2]
        return kind, left, self.term()
