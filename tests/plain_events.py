"""What ccsl-events makes of a file of events and a dump, as it is defined: the whole file at a time, with no care for speed."""

import re

LETTERS = "01xXzZuUwWlLhH-"
WHITE = b"\t\n\v\f\r "


class Refused(Exception):
    """A status and a line of report."""

    def __init__(self, status, line):
        super().__init__(line)
        self.status = status
        self.line = line


def events_fault(kind, at):
    return Refused(3, f"events: {kind} at byte {at}")


def trace_fault(kind, at):
    return Refused(4, f"trace: {kind} at byte {at}")


# the file of events

TOKEN = re.compile(r"""(?:[ \t-\r]|//[^\n]*)*(?:
    (?P<word>[A-Za-z0-9_$]+) | "(?P<quoted>[^"\n]*)" | '(?P<letters>b[01xXzZuUwWlLhH-]*) | (?P<mark>==|!=|.) | $)""",
    re.VERBOSE | re.DOTALL)


def tokens_of(text):
    """Each token: its kind, its text and its place; the last is the end."""
    found, at = [], 0
    while True:
        match = TOKEN.match(text, at)
        kind = match.lastgroup
        if kind is None:
            found.append(("end", "", len(text)))
            return found
        start = match.start(kind)
        if kind == "quoted":
            start -= 1
        if kind == "letters":
            start -= 1
        found.append((kind, match[kind], start))
        at = match.end()


class Parser:
    def __init__(self, text, is_reserved):
        self.tokens = tokens_of(text)
        self.is_reserved = is_reserved

    def peek(self):
        return self.tokens[0][:2]

    def at(self):
        return self.tokens[0][2]

    def syntax(self):
        return events_fault("syntax", self.at())

    def takes(self, kind, text):
        if self.peek() != (kind, text):
            return False
        self.tokens.pop(0)
        return True

    def expect(self, kind, text):
        if not self.takes(kind, text):
            raise self.syntax()

    def word(self):
        kind, text = self.peek()
        if kind != "word":
            raise self.syntax()
        self.tokens.pop(0)
        return text

    def index(self):
        fault = self.syntax()
        text = self.word()
        if not text.isdigit() or int(text) > 4294967294:
            raise fault
        return int(text)

    def part(self):
        kind, text = self.peek()
        if kind not in ("word", "quoted"):
            raise self.syntax()
        self.tokens.pop(0)
        return text.replace(" ", "") if kind == "quoted" else text

    def path(self):
        at = self.at()
        parts = [self.part()]
        while self.takes("mark", "."):
            parts.append(self.part())
        select = None
        if self.takes("mark", "["):
            left = self.index()
            select = (left, self.index()) if self.takes("mark", ":") else (left,)
            self.expect("mark", "]")
        return at, parts, select

    def value(self):
        kind, text = self.peek()
        letters = None
        if kind == "word" and re.fullmatch("0x[0-9a-fA-F]+", text):
            letters = format(int(text[2:], 16), "b")
        elif kind == "word" and text.isdigit() and int(text) < 2**64:
            letters = format(int(text), "b")
        elif kind == "letters" and len(text) > 1:
            letters = text[1:].lower()
        if letters is None:
            raise self.syntax()
        self.tokens.pop(0)
        return letters

    def condition(self):
        path = self.path()
        equal = self.takes("mark", "==")
        if not equal:
            self.expect("mark", "!=")
        at = self.at()
        return path, equal, at, self.value()

    def events(self):
        self.expect("word", "events")
        self.expect("word", "1")
        self.expect("mark", ";")
        found = []
        while self.peek()[0] != "end":
            found.append(self.event([e[0] for e in found]))
        return found

    def event(self, earlier):
        at = self.at()
        name = self.word()
        if not re.fullmatch("[A-Za-z_][A-Za-z0-9_]{0,63}", name) or self.is_reserved(name) or len(earlier) >= 1024:
            raise events_fault("syntax", at)
        if name in earlier:
            raise events_fault("duplicate name", at)
        self.expect("mark", "=")
        fault = self.syntax()
        kind = self.word()
        if kind not in ("rise", "fall", "change", "becomes", "event"):
            raise fault
        read = self.condition() if kind == "becomes" else self.path()
        conditions, joint = [], "when"
        while self.takes("word", joint):
            conditions.append(self.condition())
            joint = "and"
        self.expect("mark", ";")
        return name, kind, read, conditions


# the dump

def words_of(dump):
    return [(m.start(), m.group().decode("latin-1")) for m in re.finditer(rb"[^\t-\r ]+", dump)]


def select_of(text):
    match = re.fullmatch(r"\[(\d+)(?::(\d+))?\]", text)
    if not match or any(int(n) > 4294967294 for n in match.groups() if n):
        return None
    return tuple(int(n) for n in match.groups() if n)


class Variable:
    def __init__(self, scopes, kind, size, code, reference):
        self.kind, self.size, self.code = kind, size, code
        first, rest = reference[0], "".join(reference[1:])
        name, self.range = first + rest, None
        if rest and select_of(rest):
            name, self.range = first, select_of(rest)
        elif not rest and not first.startswith("\\") and first.rfind("[") > 0 and select_of(first[first.rfind("["):]):
            at = first.rfind("[")
            name, self.range = first[:at], select_of(first[at:])
        self.bare, self.full = scopes + [name], scopes + [first + rest]

    def place(self, i, bounds):
        """The place of a bit from the right."""
        if bounds and len(bounds) == 2 and abs(bounds[0] - bounds[1]) + 1 == self.size:
            place = i - bounds[1] if bounds[0] >= bounds[1] else bounds[1] - i
            return place if 0 <= place < self.size else None
        return i if i < self.size else None

    def bits(self, bounds, select):
        """How many bits stand on the right of those that are meant, and how many they are."""
        if select is None:
            return 0, self.size
        if bounds and len(bounds) == 1:
            return (0, self.size) if select == bounds else None
        places = [self.place(i, bounds) for i in select]
        if None in places or places[0] < places[-1]:
            return None
        return places[-1], places[0] - places[-1] + 1

    def meant(self, parts, select, exact):
        def fits(names):
            return names == parts if exact else names[-len(parts):] == parts

        if self.kind in ("real", "realtime", "string"):
            return None
        if fits(self.bare):
            bits = self.bits(self.range, select)
        elif fits(self.full):
            bits = self.bits(None, select)
        else:
            return None
        return bits and (self.code, self.size, bits, self.kind == "event")


def number(text, limit):
    return int(text) if re.fullmatch("[0-9]+", text) and int(text) <= limit else None


def header_of(words, length):
    """The variables, the time scale, and the words of the body."""
    scopes, variables, scale, i = [], [], None, 0
    while True:
        if i == len(words):
            raise trace_fault("truncated", length)
        at, head = words[i]
        if head == "$end" or not head.startswith("$"):
            raise trace_fault("bad header", at)
        if head == "$var" and len(variables) >= 1048576:
            raise trace_fault("too many variables", at)
        inner, i = [], i + 1
        while True:
            if i == len(words):
                raise trace_fault("truncated", length)
            if words[i][1] == "$end":
                break
            if head == "$var" and len(inner) == 1 and number(words[i][1], 2**32 - 1) is None:
                raise trace_fault("bad header", words[i][0])
            if head == "$var" and len(inner) == 2 and not re.fullmatch("[!-~]{1,32}", words[i][1]):
                raise trace_fault("bad header", words[i][0])
            inner.append(words[i][1])
            i += 1
        end, i = words[i][0], i + 1
        if head == "$var":
            if len(inner) < 4:
                raise trace_fault("bad header", end)
            variables.append(Variable(list(scopes), inner[0], int(inner[1]), inner[2], inner[3:]))
        elif head == "$scope":
            if len(scopes) >= 256:
                raise trace_fault("scopes too deep", at)
            scopes.append("".join(inner[1:]))
        elif head == "$upscope":
            scopes = scopes[:-1]
        elif head == "$timescale":
            scale = " ".join(inner)
        elif head == "$enddefinitions":
            return variables, scale, words[i:]


def resolved(variables, path):
    at, parts, select = path
    loose = {t for v in variables if (t := v.meant(parts, select, False))}
    exact = {t for v in variables if (t := v.meant(parts, select, True))}
    if not loose:
        raise events_fault("unknown path", at)
    if len({t[:3] for t in loose}) == 1:
        return next(t for v in variables if (t := v.meant(parts, select, False)))
    if len({t[:3] for t in exact}) == 1:
        return next(t for v in variables if (t := v.meant(parts, select, True)))
    raise events_fault("ambiguous path", at)


def extended(letters, size):
    first = letters[0].lower()
    return letters.lower().rjust(size, "0" if first in "01" else first)[-size:] if size else ""


def changes_of(words, length, declared, skips):
    """The times with what happens at each: a record, or None where all values are forgotten. Behind them the fault, if there is one."""
    times, now, i, dumping, on = [(0, [])], 0, 0, False, True

    def record(at, code, letters):
        if code not in declared:
            raise trace_fault("unknown code", at)
        if letters and on:
            times[-1][1].append((code, letters, dumping))

    try:
        while i < len(words):
            at, word = words[i]
            i += 1
            first, rest = word[0], word[1:]
            if first == "#":
                time = number(rest, 2**64 - 1)
                if time is None:
                    raise trace_fault("bad time", at)
                if time < now:
                    raise Refused(4, f"trace: time goes back from {now} to {time} at byte {at}")
                if time > now:
                    now = time
                    times.append((now, []))
            elif word == "$comment":
                while i < len(words) and words[i][1] != "$end":
                    i += 1
                if i == len(words):
                    raise trace_fault("truncated", length)
                i += 1
            elif word in ("$dumpvars", "$dumpall", "$dumpon", "$dumpoff"):
                if dumping:
                    raise trace_fault("unknown command", at)
                if word == "$dumpoff":
                    if not skips:
                        raise trace_fault("gap", at)
                    on = False
                    times[-1][1].append(None)
                on = on or word == "$dumpon"
                dumping = True
            elif word == "$end" and dumping:
                dumping = False
            elif first == "$":
                raise trace_fault("unknown command", at)
            elif first in LETTERS and rest:
                record(at, rest, first)
            elif first in "bBrRsS" and (rest or first in "sS") and (first not in "bB" or all(c in LETTERS for c in rest)):
                if i == len(words):
                    raise trace_fault("truncated", length)
                record(words[i][0], words[i][1], rest if first in "bB" else "")
                i += 1
            else:
                raise trace_fault("bad change", at)
        if dumping:
            raise trace_fault("truncated", length)
    except Refused as fault:
        return times[:-1], fault
    return times, None


def part(value, bits):
    low, width = bits
    return value[len(value) - low - width:len(value) - low]


def made(text, dump, skips, is_reserved):
    """The status, the line of report and what is written; nothing where no body is read."""
    try:
        events = Parser(text, is_reserved).events()
        words = words_of(dump)
        variables, scale, words = header_of(words, len(dump))
        bound = [bind(variables, event) for event in events]
    except Refused as fault:
        return fault.status, fault.line, ""
    times, fault = changes_of(words, len(dump), {v.code for v in variables}, skips)
    lines = [f"$timescale {scale} $end"] if scale is not None else []
    lines.append("$scope module events $end")
    lines += [f"$var event 1 {code_of(i)} {event[0]} $end" for i, event in enumerate(events)]
    lines += ["$upscope $end", "$enddefinitions $end"]
    rows, count = rows_of(times, bound), 0
    for time, names in rows:
        if names:
            count += 1
            lines.append(f"#{time}")
            lines += [f"1{code_of(i)}" for i in names]
    written = "".join(line + "\n" for line in lines)
    if fault:
        return fault.status, fault.line, written
    return 0, f"events: {len(events)} names, {count} times", written


def code_of(i):
    return chr(33 + i) if i < 94 else chr(33 + (i - 94) // 94) + chr(33 + (i - 94) % 94)


def bind(variables, event):
    """An event with its paths bound: the kind, what is read, and the conditions."""
    _name, kind, read, conditions = event

    def condition(path, equal, at, letters):
        target = resolved(variables, path)
        width = target[2][1]
        if len(letters) > width:
            raise events_fault("value too wide", at)
        return target, equal, extended(letters, width)

    if kind == "becomes":
        trigger = condition(*read)
    else:
        trigger = resolved(variables, read)
        if kind in ("rise", "fall") and trigger[2][1] != 1:
            raise events_fault("not one bit", read[0])
        if kind == "event" and not trigger[3]:
            raise events_fault("no event", read[0])
    return kind, trigger, [condition(*c) for c in conditions]


def rows_of(times, bound):
    """Each time with a change, and the names that happen at it."""
    before, rows = {}, []

    def value(values, target):
        letters = values.get(target[0])
        return None if letters is None else part(extended(letters, target[1]), target[2])

    def holds(values, condition):
        target, equal, letters = condition
        found = value(values, target)
        return found is not None and (found == letters) == equal

    for time, records in times:
        after, heard = dict(before), set()
        for record in records:
            if record is None:
                before, after, heard = {}, {}, set()
                continue
            code, letters, dumped = record
            after[code] = letters
            if not dumped:
                heard.add(code)
        names = []
        for i, (kind, trigger, conditions) in enumerate(bound):
            target = trigger[0] if kind == "becomes" else trigger
            old, new = value(before, target), value(after, target)
            known = old is not None and new is not None
            happens = {
                "rise": known and new == "1" and old != "1",
                "fall": known and new == "0" and old != "0",
                "change": known and new != old,
                "becomes": known and kind == "becomes" and holds(after, trigger) and not holds(before, trigger),
                "event": target[0] in heard,
            }[kind]
            if happens and all(holds(before, c) for c in conditions):
                names.append(i)
        rows.append((time, names))
        before = after
    return rows
