"""Traces, read slowly as whole files: the declarations, the changes, the first fault, the clocks' codes and the rows."""
import re

SCALARS = b'01xXzZuUwWlLhH-'
NOT_NETS = (b'real', b'realtime', b'string')


class Fault(Exception):
    """A refusal of a trace, with the text that is printed of it."""


def fault(what, at):
    raise Fault(f'{what} at byte {at}')


def tokens(text):
    for found in re.finditer(rb'[^\t-\r ]+', text):
        if len(found.group()) > 65536:
            fault('token too long', found.start())
        yield found.start(), found.group()


class Reading:
    """The declarations (depth, type, size, code, reference) and the changes (time, code, value, whether inside a block)."""

    def __init__(self, text, declared, defined):
        self.end, self.tokens = len(text), tokens(text)
        self.declarations, self.changes, self.depth = [], [], 0
        while not self.command():
            pass
        self.bind(declared, defined)
        self.codes = {declaration[3] for declaration in self.declarations}
        self.body()

    def next(self):
        for token in self.tokens:
            return token
        fault('truncated', self.end)

    def command(self):
        """Reads a command of the header; whether it was the last."""
        at, name = self.next()
        if name[:1] != b'$' or name == b'$end':
            fault('bad header', at)
        if name == b'$var' and len(self.declarations) == 1048576:
            fault('too many variables', at)
        words = []
        while True:
            place, word = self.next()
            if word == b'$end':
                break
            words.append(word)
            if name == b'$var':
                self.look(place, words)
        if name == b'$var':
            if len(words) < 4:
                fault('bad header', place)
            self.declarations.append((self.depth, words[0], number(words[1], 2 ** 32), words[2], reference(words[3:])))
        elif name == b'$scope':
            self.depth += 1
            if self.depth > 256:
                fault('too deep', at)
        elif name == b'$upscope':
            self.depth = max(self.depth - 1, 0)
        return name == b'$enddefinitions'

    def look(self, at, words):
        """A size or code is refused as soon as it ends."""
        word = words[-1]
        if len(words) == 2 and number(word, 2 ** 32) is None:
            fault('bad header', at)
        if len(words) == 3 and not re.fullmatch(rb'[!-~]{1,32}', word):
            fault('bad header', at)

    def bind(self, declared, defined):
        """The code of each bound clock, and whether it is an event."""
        self.bound = {}
        for name in declared + defined:
            fitting = [one for one in self.declarations if one[4] == name.encode() and fits(one)]
            nearest = [one for one in fitting if one[0] == min(other[0] for other in fitting)]
            if len({code for _, _, _, code, _ in nearest}) > 1:
                raise Fault(f'ambiguous clock {name}')
            if nearest:
                self.bound[name] = nearest[0][3], nearest[0][1] == b'event'
            elif name in declared:
                raise Fault(f'unbound clock {name}')

    def body(self):
        time, block = 0, False
        for at, word in self.tokens:
            first, rest = word[:1], word[1:]
            if first == b'#':
                time = self.time(at, rest, time)
            elif first in SCALARS and rest:
                self.change(at, rest, time, first, block)
            elif first in b'bB' and rest and not rest.strip(SCALARS):
                self.change(*self.next(), time, rest[-1:], block)
            elif first in b'rR' and rest or first in b'sS':
                self.known(*self.next())
            elif word == b'$comment':
                while self.next()[1] != b'$end':
                    pass
            elif word == b'$dumpoff' and not block:
                fault('gap', at)
            elif word in (b'$dumpvars', b'$dumpall', b'$dumpon') and not block:
                block = True
            elif word == b'$end' and block:
                block = False
            else:
                fault('unknown command' if first == b'$' else 'bad change', at)
        if block:
            fault('truncated', self.end)

    def time(self, at, digits, present):
        time = number(digits, 2 ** 64)
        if time is None:
            fault('bad time', at)
        if time < present:
            fault(f'time goes back from {present} to {time}', at)
        return time

    def known(self, at, code):
        if code not in self.codes:
            fault('unknown code', at)

    def change(self, at, code, time, value, block):
        self.known(at, code)
        self.changes.append((time, code, value == b'1', block))

    def rows(self):
        """Each time at which a bound clock ticks, with the names of those that do."""
        ticks = {}
        for name, (code, is_event) in self.bound.items():
            mine = [change for change in self.changes if change[1] == code]
            for time in events(mine) if is_event else rises(mine):
                ticks.setdefault(time, set()).add(name)
        return sorted(ticks.items())


def events(changes):
    return {time for time, _, _, block in changes if not block}


def rises(changes):
    settled = {time: value for time, _, value, _ in changes}
    times = sorted(settled)
    return {time for before, time in zip(times, times[1:]) if settled[time] and not settled[before]}


def number(digits, end):
    """The number with these digits, where it is below the end."""
    if not re.fullmatch(rb'[0-9]+', digits):
        return None
    value = int(digits.lstrip(b'0')[:30] or b'0')
    return value if value < end else None


def reference(words):
    first, *more = words
    return first if b''.join(more) in (b'', b'[0:0]') else b''.join(words)


def fits(declaration):
    _, kind, size, _, _ = declaration
    return kind == b'event' or size == 1 and kind not in NOT_NETS
