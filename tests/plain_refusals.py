"""The refusals of specifications that read: every fault of the tree, of which the least is answered."""
import re

ORDER = ['duplicate name', 'unknown name', 'later name', 'wrong kind', 'unguarded call', 'too tall', 'wrong arguments', 'bad word']


def word_of(text):
    """The prefix and the period of a word of letters, or None where it does not read."""
    found = re.fullmatch(r'([01]*)(?:\(([01]+)\))?', text)
    if not found or not text or len(text.replace('(', '').replace(')', '')) > 4096:
        return None
    return found.group(1), found.group(2) or ''


class Definitions:
    """What stands under the names of relations and expressions: (number, kind, parameters' kinds, parameters' names, body)."""

    def __init__(self, definitions, earlier=None):
        self.of = dict(earlier.of) if earlier else {}
        self.written = definitions
        self.first = -len(definitions) if earlier is None else 0
        self.twice = []
        for number, definition in enumerate(definitions, self.first):
            heads = [definition[1:]] if definition[0] == 'relation' else definition[1]
            for name, params, body in heads:
                if name[1] in self.of:
                    self.twice.append(name[0])
                else:
                    kinds, names = [kind for kind, _ in params], [spot[1] for _, spot in params]
                    self.of[name[1]] = number, definition[0], kinds, names, body


class Faults:
    """Walks over a whole file and notes each place at which it may be refused."""

    def __init__(self, parsed, library):
        self.found, self.levels, self.here = [], dict.fromkeys(range(-len(library.written), 0), 1), None
        self.definitions = Definitions(parsed[0], library)
        for at in self.definitions.twice:
            self.note('duplicate name', at)
        for self.number, definition in enumerate(parsed[0]):
            self.called = [0]
            if definition[0] == 'relation':
                self.relation(definition)
            else:
                self.group(definition[1])
            self.levels[self.number] = 1 + max(self.called)
        self.number, self.names = len(parsed[0]), {}
        for line in parsed[1]:
            for at, name in line[1] if line[0] == 'clocks' else [line[1]] if line[0] == 'define' else []:
                self.declare(at, name, 'clock')
        self.lines(line for line in parsed[1] if line[0] != 'clocks')

    def note(self, what, at):
        self.found.append((at, ORDER.index(what)))

    def declare(self, at, name, kind):
        if name in self.names:
            self.note('duplicate name', at)
        else:
            self.names[name] = at, kind

    def params(self, params):
        self.names = {}
        for place, (kind, (at, name)) in enumerate(params):
            self.declare(at, name, kind)
            if place >= 8:
                self.note('wrong arguments', at)

    def relation(self, definition):
        _, _, params, lines = definition
        self.params(params)
        for line in lines:
            if line[0] == 'define':
                self.declare(*line[1], 'clock')
        self.lines(lines)

    def group(self, members):
        for _, params, body in members:
            self.params(params)
            self.tree(body, True, False)

    def lines(self, lines):
        for line in lines:
            if line[0] == 'define':
                self.here = line[1][0]
                self.tree(line[2], False, False)
                self.here = None
            elif line[0] == 'constraint':
                _, _, bound, left, right = line
                self.kind_is('clock', *left)
                self.kind_is('clock', *right)
                if bound and bound[1] == 0:
                    self.note('wrong arguments', bound[0])
            else:
                self.call(line[1], line[2], 'relation', False)

    def kind_of(self, at, name):
        """The kind of a used clock or parameter, where its use is no fault."""
        if name not in self.names:
            return self.note('unknown name', at)
        declared, kind = self.names[name]
        if declared > at or declared == self.here:
            self.note('later name', at)
        return kind

    def kind_is(self, wanted, at, name):
        kind = self.kind_of(at, name)
        if kind and kind != wanted:
            self.note('wrong kind', at)

    def tree(self, tree, tail, guarded):
        form = tree[0]
        if form == 'name':
            self.kind_is('clock', *tree[1])
        elif form == 'call':
            self.call(tree[1], tree[2], 'group', tail and guarded)
        elif form == 'binary':
            self.tree(tree[2], False, False)
            then = tail and tree[1] == 'then'
            self.tree(tree[3], then, then)
        elif form in ('delay', 'await', 'filter'):
            self.tree(tree[1], False, False)
            self.word(tree[2]) if form == 'filter' else self.term(tree[2])
        elif form == 'delayed':
            self.tree(tree[1], False, False)
            if not 1 <= tree[2][1] <= 4096:
                self.note('wrong arguments', tree[2][0])
            self.tree(tree[3], False, False)
        elif form == 'if':
            self.test(tree[1])
            self.tree(tree[2], tail, guarded)
            self.tree(tree[3], tail, guarded)

    def test(self, test):
        if test[0] in ('head', 'ended'):
            self.kind_is('word', *test[1])
        else:
            self.term(test[1])
            self.term(test[2])

    def term(self, term):
        for _, kind, at, value in term:
            if kind == 'name':
                self.kind_is('number', at, value)

    def word(self, word):
        kind, at, value = word
        if kind != 'text':
            self.kind_is('word', at, value)
        elif word_of(value) is None:
            self.note('bad word', at)

    def call(self, spot, arguments, wanted, guarded):
        at, name = spot
        kinds = []
        if name not in self.definitions.of:
            self.note('unknown name', at)
        else:
            number, kind, kinds = self.definitions.of[name][:3]
            if number > self.number or number == self.number and kind == 'relation':
                self.note('later name', at)
            if kind != wanted:
                self.note('wrong kind', at)
            elif number == self.number and not guarded:
                self.note('unguarded call', at)
            elif number < self.number < len(self.definitions.written):
                self.level(at, number, wanted)
            if len(kinds) != len(arguments):
                self.note('wrong arguments', at)
        for place, argument in enumerate(arguments):
            self.argument(argument, kinds[place] if place < len(kinds) else None)

    def level(self, at, number, kind):
        if kind == 'relation' or self.definitions.written[self.number][0] == 'group':
            self.called.append(self.levels[number])
            if self.levels[number] >= 8:
                self.note('too tall', at)

    def argument(self, argument, wanted):
        if argument[0] != 'term':
            kind, at = 'word', argument[1]
            self.word(argument)
        else:
            (_, form, at, value), *more = argument[1]
            if form == 'name' and not more:
                kind = self.kind_of(at, value)
            else:
                kind = 'number'
                self.term(argument[1])
        if kind and wanted and kind != wanted:
            self.note('wrong kind', at)
