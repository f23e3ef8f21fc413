"""Draws traces: headers and bodies of every form, with errors by a given chance or with damage, and dumps of drawn runs."""
import re

CODES = ['!', '"', '#', 'a!', '#5', '1!', '-', '$x']
SPACES = [' ', '\n', '\t', '\r', '\v', '\f', '\r\n']
SKIPPED = [['$date'], ['$comment', '$var', '#5'], ['$timescale', '1', 'ns'], ['$'], ['$dumpoff'], ['$upscope'], ['$scope', 'module', 'm']]
TIMES = ['#', '#1x', '#-1', '#18446744073709551615', '#18446744073709551616', '#0']
WRONG = ['$dumpoff', '$end', '$dumpvars', '$var', 'foo', '1', '2!', 'b', 'b1?', 'r', 's', 'r1', '$comment', '1zz', 'b1']
BYTES = b'$#01!" \nxbrs\x0b\x7f\x80'


class Trace:
    def __init__(self, draw, names, wrong):
        self.draw, self.names, self.wrong, self.codes, self.time, self.block = draw, names, wrong, [], 0, False

    def errs(self):
        return self.draw.random() < self.wrong

    def tokens(self):
        wanted = self.names + self.draw.choices([*self.names, 'other'], k=self.draw.choice([0, 0, 1, 2]))
        self.draw.shuffle(wanted)
        found = []
        for name in wanted[1:] if self.errs() else wanted:
            if self.draw.random() < 0.3:
                found += [*self.draw.choice(SKIPPED), '$end']
            found += self.declaration(name)
        found += ['$enddefinitions', '$end']
        for _ in range(self.draw.choice([0, 5, 15, 40])):
            found += self.body_tokens()
        return found + (['$end'] if self.block and not self.errs() else [])

    def declaration(self, name):
        fresh = [code for code in CODES if code not in self.codes]
        code = self.draw.choice(fresh if fresh and self.draw.random() < 0.8 else CODES)
        code = self.draw.choice(['x' * 32, 'x' * 33, '\x7f', '\xe9']) if self.errs() else code
        kind, size, reference = self.draw.choice(['event', 'wire', 'reg']), '1', [name]
        if self.draw.random() < 0.3:
            kind = self.draw.choice(['event', 'wire', 'real', 'realtime', 'string', 'integer'])
            size = self.draw.choice(['1', '01', '0', '8', '4294967295'])
            indices = self.draw.choice([['[0:0]'], ['[0', ':0]'], ['[7:0]'], ['[0:0]', '[0:0]'], []])
            reference = self.draw.choice([[name, *indices], [name, *indices], [f'{name}[0:0]'], [name[:1], name[1:]]])
        size = self.draw.choice(['-1', '4294967296', '1x', '']) if self.errs() else size
        self.codes.append(code)
        return [word for word in ['$var', kind, size, code, *reference, '$end'] if word]

    def body_tokens(self):
        form, code = self.draw.random(), self.draw.choice(self.codes or CODES)
        if self.errs():
            return [self.draw.choice(WRONG + TIMES)]
        if form < 0.35:
            self.time += self.draw.choice([0, 1, 1, 3])
            return [f'#{"0" * self.draw.choice([0, 0, 2])}{self.time}']
        if form < 0.7:
            return [self.draw.choice('00001111xXzZuUwWlLhH-') + code]
        if form < 0.82:
            return [self.draw.choice('bB') + ''.join(self.draw.choices('0011xzHL-', k=self.draw.randint(1, 3))), code]
        if form < 0.87:
            return [self.draw.choice(['r1.5', 'R0', 's', 'Shello', 's$end']), code]
        if form < 0.92:
            return ['$comment', *self.draw.choice([[], ['#1', '1!'], ['$dumpoff']]), '$end']
        self.block = not self.block
        return [self.draw.choice(['$dumpvars', '$dumpall', '$dumpon']) if self.block else '$end']


def joined(draw, tokens):
    spaces = draw.choice([SPACES[:2], SPACES])
    text = ''.join(token + draw.choice(spaces) for token in tokens)
    return (text if draw.random() < 0.7 else text.rstrip()).encode('latin-1')


def damaged(draw, tokens):
    """The text with a token or a byte dropped, doubled, swapped or replaced, or cut there."""
    by_token = draw.random() < 0.5
    parts = list(tokens) if by_token else list(re.findall('.', ' '.join(tokens), re.S))
    place, other = draw.randrange(len(parts)), draw.randrange(len(parts))
    change = draw.choice(['drop', 'double', 'swap', 'replace', 'cut'])
    if change == 'swap':
        parts[place], parts[other] = parts[other], parts[place]
    elif change == 'cut':
        parts = parts[:place]
    else:
        strange = draw.choice(WRONG + TIMES if by_token else [chr(byte) for byte in BYTES])
        parts[place:place + 1] = {'drop': [], 'double': parts[place:place + 1] * 2, 'replace': [strange]}[change]
    return joined(draw, parts) if by_token else ''.join(parts).encode('latin-1')


def dump(draw, history, lengths=(4, 8, 12), most=None, slips=1):
    """The dump of a run that is drawn step by step, now and then with a step that is none, or with a tick that is not shown: as often as
    `slips` says. At a step no more than so many declared clocks tick, where that is given."""
    system = history.system
    declared, written = range(len(system.declared)), range(len(system.declared) + len(system.defined))
    shown = [clock for clock in written if clock in declared or draw.random() < 0.8]
    lines, time = [f'$var event 1 {chr(33 + clock)} {system.names[clock]} $end' for clock in shown] + ['$enddefinitions $end'], 0
    for _ in range(draw.choice(lengths)):
        steps = [history.completed(draw.sample(declared, draw.randint(1, most or len(declared)))) for _ in range(8 if most is None else 1)]
        fitting = [step for step in steps if history.first_failing(step) is None]
        step = draw.choice(fitting if fitting and draw.random() >= 0.03 * slips else steps)
        ticks = [clock for clock in shown if clock in step and draw.random() >= 0.005 * slips]
        lines += [f'#{time}', *(f'1{chr(33 + clock)}' for clock in ticks)]
        time += draw.choice([1, 1, 4])
        history.steps.append(step)
    return '\n'.join([*lines, '']).encode()
