"""Weights by which each rule takes more than it makes, found exactly, or the rules for which there are none."""
from collections import Counter
from fractions import Fraction
from math import lcm

from leskvund.patterns import is_integer


class Unweighable(Exception):
    """There are no weights: a rule copies what may weigh anything, or rules, fired so often, make all that they take."""


def functor_text(functor):
    return 'int' if is_integer(functor) else f'{functor[0]}/{functor[1]}'


def level_counts(top, guard):
    """What a head or body has that can weigh."""
    counts = Counter()
    for level in top.below():
        counts['{}'] += level is not top
        for leaf in level.leaves:
            if leaf[0] == 'atom':
                counts[functor_text(leaf[1])] += 1
            elif leaf[0] == 'typed' and (leaf[1] in guard.bound or guard.kinds.get(leaf[1]) == 'int'):
                counts['int'] += 1
    return counts


def copied_context(rule):
    """A context that a body has twice, and that may weigh anything."""
    counts = Counter()
    for level in rule.body.below():
        counts.update(name for name, is_closed in level.rests if is_closed)
        counts.update(leaf[1] for leaf in level.leaves if leaf[0] == 'typed' and leaf[1] not in rule.guard.bound and rule.guard.kinds.get(leaf[1]) != 'int')
    return next((name for name, count in counts.items() if count > 1), None)


def lowering(rule):
    """How much more of each a rule takes than it makes."""
    counts = level_counts(rule.head.levels[0], rule.guard)
    counts.subtract(level_counts(rule.body, rule.guard))
    return {key: count for key, count in counts.items() if count}


def process_counts(root):
    """What a process has that can weigh."""
    counts = Counter(functor_text(atom.functor) for region in root.below() for atom in region.atoms)
    counts['{}'] = sum(1 for _ in root.below()) - 1
    return counts


class Simplex:
    """Finds y of at least 0 with the greatest sum, so that for each key the sum of `rows[key] * y` is at most `most[key]`.

    The numbers are fractions, so nothing is rounded. It ends since of the columns and rows that can be taken the first is
    (Bland's rule). At the end the prices of the keys are the weights; or it grows without end, and says along which y.
    """

    def __init__(self, columns, most):
        self.keys, self.count = sorted({key for column in columns for key in column}), len(columns)
        self.rows = []
        for at, key in enumerate(self.keys):
            slack = [Fraction(at == other) for other in range(len(self.keys))]
            self.rows.append([Fraction(column.get(key, 0)) for column in columns] + slack + [Fraction(most.get(key, 0))])
        self.costs = [Fraction(-1)] * self.count + [Fraction(0)] * (len(self.keys) + 1)
        self.basis = [self.count + at for at in range(len(self.keys))]

    def solve(self):
        """The prices of the keys, or None and the y along which it grows."""
        while True:
            column = next((at for at, cost in enumerate(self.costs[:-1]) if cost < 0), None)
            if column is None:
                return dict(zip(self.keys, self.costs[self.count:-1])), None
            rows = [at for at, row in enumerate(self.rows) if row[column] > 0]
            if not rows:
                return None, self.ray(column)
            self.pivot(min(rows, key=lambda at: (self.rows[at][-1] / self.rows[at][column], self.basis[at])), column)

    def pivot(self, at, column):
        row = self.rows[at]
        self.rows[at] = row = [value / row[column] for value in row]
        for other in range(len(self.rows)):
            if other != at and self.rows[other][column]:
                self.rows[other] = less(self.rows[other], row, self.rows[other][column])
        self.costs = less(self.costs, row, self.costs[column])
        self.basis[at] = column

    def ray(self, column):
        ray = [Fraction(0)] * self.count
        if column < self.count:
            ray[column] = Fraction(1)
        for row, basic in zip(self.rows, self.basis):
            if basic < self.count:
                ray[basic] -= row[column]
        return ray


def less(row, other, times):
    return [value - times * it for value, it in zip(row, other)]


def whole(values):
    """Fractions times the least number that makes them whole."""
    times = lcm(*(value.denominator for value in values)) if values else 1
    return [int(value * times) for value in values]


def weights_for(rules, root, label):
    """Weights for rules, whose sum over a process is as small as can be, and that sum before they were made whole."""
    for rule in rules:
        name = copied_context(rule)
        if name:
            raise Unweighable(f'no weights exist: {name}, which may weigh anything, stands twice in the body of\n  {label(rule)}')
    counts = process_counts(root)
    prices, ray = Simplex([lowering(rule) for rule in rules], counts).solve()
    if prices is None:
        fired = [(times, rule) for times, rule in zip(whole(ray), rules) if times]
        told = '\n'.join(f'  {times} times {label(rule)}' for times, rule in fired)
        raise Unweighable(f'no weights exist: where these rules fire so often, they make all that they take\n{told}')
    keys = sorted(prices)
    best = sum(prices[key] * counts.get(key, 0) for key in keys)
    return {key: weight for key, weight in zip(keys, whole([prices[key] for key in keys])) if weight}, best
