"""What an expression asks of a step and when it is dead, each read off the whole history; what may come next; and the verdict on rows."""
import itertools, sys

from plain_system import letter, number_value, word_value
from seeded_words import words

sys.setrecursionlimit(20000)


class History:
    """The steps of a system so far, each a set of clock numbers; a formula is True, False or a tuple that begins with its form."""

    def __init__(self, system):
        self.system, self.steps, self.told = system, [], {}

    def formula(self, tree, values, born, now):
        return self.once('formula', self.formula_anew, tree, values, born, now)

    def dead(self, tree, values, born, now):
        return self.once('dead', self.dead_anew, tree, values, born, now)

    def once(self, what, find, tree, values, born, now):
        key = what, id(tree), frozenset(values.items()), born, now
        if key not in self.told:
            self.told[key] = find(tree, values, born, now)
        return self.told[key]

    def ticked(self, tree, values, born, now):
        """The steps before now at which it ticked."""
        return [step for step in range(born, now) if self.ticks(tree, values, born, step)]

    def ticks(self, tree, values, born, step):
        return self.once('ticks', lambda *of: holds(self.formula(*of), self.steps[step]), tree, values, born, step)

    def formula_anew(self, tree, values, born, now):
        form = tree[0]
        if form == 'name':
            return 'var', values[tree[1][1]]
        if form == 'never':
            return False
        if form == 'call':
            return self.formula(*self.called(tree, values), born, now)
        if form == 'if':
            return self.formula(self.picked(tree, values), values, born, now)
        if form == 'binary':
            return self.binary(tree, values, born, now)
        left = self.formula(tree[1], values, born, now)
        count = len(self.ticked(tree[1], values, born, now))
        if form == 'delay':
            return left if count >= number_value(tree[2], values) else False
        if form == 'await':
            return left if count + 1 == number_value(tree[2], values) else False
        if form == 'filter':
            word, offset = word_value(tree[2], values)
            return left if letter(word, offset + count) else False
        own, other = (self.ticked(side, values, born, now) for side in (tree[1], tree[3]))
        due = any(sum(step > tick for step in other) == tree[2][1] - 1 for tick in own)
        return self.formula(tree[3], values, born, now) if due else False

    def binary(self, tree, values, born, now):
        _, op, left, right = tree
        if op == 'then':
            end = self.end(left, values, born, now)
            return self.formula(left, values, born, now) if end is None else self.formula(right, values, end, now)
        one, two = (self.formula(side, values, born, now) for side in (left, right))
        own, other = (self.ticked(side, values, born, now) for side in (left, right))
        if op == 'union':
            return 'or', one, two
        if op == 'inter':
            return 'and', one, two
        if op == 'minus':
            return 'and', one, ('not', two)
        if op == 'inf':
            return one if len(own) > len(other) else two if len(other) > len(own) else ('or', one, two)
        if op == 'sup':
            return one if len(own) < len(other) else two if len(other) < len(own) else ('and', one, two)
        if op == 'upto':
            return False if other else ('and', one, ('not', two))
        if op == 'upto weakly':
            return False if other else one
        if op == 'sampled':
            return two if waits(own, other, False) else False
        return two if waits(own, other, True) else ('and', two, one)

    def dead_anew(self, tree, values, born, now):
        form = tree[0]
        if form == 'name':
            defined = values[tree[1][1]] - len(self.system.declared)
            return defined >= 0 and self.dead(*self.system.definitions[defined], 0, now)
        if form == 'never':
            return False
        if form == 'call':
            return self.dead(*self.called(tree, values), born, now)
        if form == 'if':
            return self.dead(self.picked(tree, values), values, born, now)
        if form == 'binary':
            return self.dead_binary(tree, values, born, now)
        left = self.dead(tree[1], values, born, now)
        own = self.ticked(tree[1], values, born, now)
        if form == 'delay':
            return left
        if form == 'await':
            return left or len(own) >= number_value(tree[2], values)
        if form == 'filter':
            (prefix, period), offset = word_value(tree[2], values)
            return left or not period and len(own) >= len(prefix) - offset
        other = self.ticked(tree[3], values, born, now)
        open_still = any(sum(step > tick for step in other) < tree[2][1] for tick in own)
        return self.dead(tree[3], values, born, now) or left and not open_still

    def dead_binary(self, tree, values, born, now):
        _, op, left, right = tree
        if op == 'then':
            end = self.end(left, values, born, now)
            return end is not None and self.dead(right, values, end, now)
        one, two = (self.dead(side, values, born, now) for side in (left, right))
        own, other = (self.ticked(side, values, born, now) for side in (left, right))
        if op in ('union', 'inf'):
            return one and two
        if op == 'inter':
            return one or two
        if op == 'minus':
            return one
        if op == 'sup':
            return one and len(own) <= len(other) or two and len(other) <= len(own)
        if op in ('upto', 'upto weakly'):
            return one or bool(other)
        return two or one and not waits(own, other, op == 'sampled weakly')

    def end(self, left, values, born, now):
        return next((step for step in range(born + 1, now + 1) if self.dead(left, values, born, step)), None)

    def called(self, tree, values):
        name = tree[1][1]
        return self.system.known.of[name][4], self.system.arguments(name, tree[2], values)

    def picked(self, tree, values):
        test = tree[1]
        if test[0] in ('head', 'ended'):
            (prefix, period), offset = word_value(('name', *test[1]), values)
            is_so = letter((prefix, period), offset) if test[0] == 'head' else not period and offset == len(prefix)
        else:
            one, two = (number_value(term, values) for term in test[1:])
            is_so = one == two if test[0] == '=' else one < two
        return tree[2] if is_so else tree[3]

    def items(self):
        """The formula of each item after the steps so far."""
        now, first = len(self.steps), len(self.system.declared)
        defined = [('iff', ('var', first + place), self.formula(*definition, 0, now))
                   for place, definition in enumerate(self.system.definitions)]
        return defined + [self.constraint(*one[:4]) for one in self.system.constraints]

    def constraint(self, kind, bound, left, right):
        one, two = ('var', left), ('var', right)
        ahead, behind = (sum(clock in step for step in self.steps) for clock in (left, right))
        if kind == 'subclock':
            return 'or', ('not', one), two
        if kind == 'coincides':
            return 'iff', one, two
        if kind == 'excludes':
            return 'not', ('and', one, two)
        if kind == 'precedes weakly':
            return ('or', ('not', two), one) if ahead == behind else True
        strict = ('not', two) if ahead == behind else True
        if kind == 'precedes':
            return strict
        return 'and', strict, ('or', ('not', one), two) if ahead >= behind + bound else True

    def first_failing(self, step):
        return next((item for item, formula in enumerate(self.items()) if not holds(formula, step)), None)

    def completed(self, declared):
        """The step that these declared ticks give."""
        step = set(declared)
        for place, definition in enumerate(self.system.definitions):
            if holds(self.formula(*definition, 0, len(self.steps)), step):
                step.add(len(self.system.declared) + place)
        return step

    def push(self, declared):
        """Goes on by the step that these declared ticks give."""
        self.steps.append(self.completed(declared))

    def pop(self):
        self.steps.pop()
        self.told.clear()

    def admissible(self):
        """All sets of declared clocks that may tick next."""
        declared = range(len(self.system.declared))
        sets = [set(ticks) for size in declared for ticks in itertools.combinations(declared, size + 1)]
        return [ticks for ticks in sets if self.first_failing(self.completed(ticks)) is None]

    def chosen(self, policy, seed):
        """The best of them by the policy and the words of the step's number, or None."""
        declared = range(len(self.system.declared))
        drawn = words(seed, len(self.steps) * len(declared), len(declared))
        wanted = [{'min': False, 'max': True, 'seeded': word % 2 == 1}[policy] for word in drawn]
        order = sorted(declared, key=lambda clock: (drawn[clock], clock))
        return max(self.admissible(), key=lambda ticks: [(clock in ticks) == wanted[clock] for clock in order], default=None)

    def core(self):
        """The items that block every step, each with the least step without it; or None where a step is possible.

        They are what is left where each item in turn, from the first, is dropped if the others still block. Of two steps the one
        without the first clock at which they differ is the lesser.
        """
        clocks, declared = range(len(self.system.names)), len(self.system.declared)
        every = itertools.product([False, True], repeat=len(clocks))
        steps = [set(itertools.compress(clocks, ticks)) for ticks in every if any(ticks[:declared])]
        fitting = [{place for place, step in enumerate(steps) if holds(formula, step)} for formula in self.items()]

        def least(items):
            return min(set(range(len(steps))).intersection(*(fitting[item] for item in items)), default=None)

        core = list(range(len(fitting)))
        if least(core) is not None:
            return None
        for item in range(len(fitting)):
            others = [other for other in core if other != item]
            core = others if least(others) is None else core
        return [(item, steps[least([other for other in core if other != item])]) for item in core]


def waits(own, other, weakly):
    return any(all(step < tick if weakly else step <= tick for step in other) for tick in own)


def holds(formula, step):
    if formula in (True, False):
        return formula
    form, *parts = formula
    if form == 'var':
        return parts[0] in step
    values = [holds(part, step) for part in parts]
    return {'not': not values[0], 'and': all(values), 'or': any(values), 'iff': values[0] == values[-1]}[form]


def verdict(system, rows, bound):
    """The violated step, its time and the item, or None for a run; rows have times and names."""
    history, numbers = History(system), {name: number for number, name in enumerate(system.names)}
    seen = {numbers[name] for name in bound}
    for time, names in rows:
        recorded = {numbers[name] for name in names}
        step = history.completed(clock for clock in recorded if clock < len(system.declared))
        unlike = [clock - len(system.declared) for clock in (step ^ recorded) & seen]
        broken = [item for item in [history.first_failing(step), *unlike] if item is not None]
        if broken:
            return f'step {len(history.steps)}, time {time}, {system.item(min(broken))}'
        history.steps.append(step)
    return None
