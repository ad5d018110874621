"""Reads a rule as `lmn run` prints it: what its head asks for, what its guard says, what its body makes."""
from __future__ import annotations

import functools
import itertools
import re
from collections.abc import Iterator
from typing import TYPE_CHECKING, Any

from leskvund.labels import Labels
from leskvund.lines import end_of_parentheses

if TYPE_CHECKING:
    from leskvund.labels import Functor

    # A leaf of a level, as Level tells it; an expression: a number, a context, or an operator with two expressions.
    Leaf = tuple[Any, ...]
    Expression = Any

WORD = re.compile(r"'(?:[^']|'')*'|-?\d+|[a-z]\w*|L\d+|[$@]\w+|:-|=:=|=\\=|=<|>=|\\=|\S")
INTEGER = re.compile(r'-?\d+')
KINDS = ('ground', 'unary', 'int')
COMPARISONS = {'<': int.__lt__, '=<': int.__le__, '>': int.__gt__, '>=': int.__ge__, '=:=': int.__eq__, '=\\=': int.__ne__}
LOW, HIGH = -2 ** 63, 2 ** 63 - 1
# Of so many atoms of one functor in a head it is asked whether they can change places; of more it is supposed.
MOST_PERMUTED = 4


def is_integer(functor: Functor) -> bool:
    """Whether an atom with this functor is an integer of a guard."""
    return functor[1] == 1 and INTEGER.fullmatch(functor[0]) is not None


class Level:
    """A level of a rule. A leaf is ('atom', functor, links), ('typed', name, link) or ('=', link, link), in their order."""

    def __init__(self) -> None:
        self.leaves, self.membranes, self.rests, self.rule_contexts, self.rules = [], [], [], [], []

    def below(self) -> Iterator[Level]:
        """The level and all levels in it, an outer one before an inner one."""
        yield self
        for inner in self.membranes:
            yield from inner.below()


class Words:
    """The words of a printed rule, taken from left to right."""

    def __init__(self, text: str) -> None:
        self.text, self.at = text, 0
        self.word = None
        self.next()

    def next(self) -> str | None:
        """Takes the word at hand, and answers it."""
        taken = self.word
        found = WORD.search(self.text, self.at)
        self.word, self.start, self.at = (found.group(), found.start(), found.end()) if found else (None, len(self.text), len(self.text))
        return taken

    def take(self, word: str) -> bool:
        """Whether the word at hand is this one, which then is taken."""
        return self.word == word and self.next() is not None

    def nested(self) -> str:
        """The text of the rule in parentheses that begin at hand, which is taken."""
        end = end_of_parentheses(self.text, self.start)
        inner, self.at = self.text[self.start + 1:end - 1], end
        self.next()
        return inner


def read_links(words: Words) -> tuple[str, ...]:
    """The links in the parentheses at hand, if there are any."""
    links = []
    if words.take('('):
        while not words.take(')'):
            links.append(words.next())
            words.take(',')
    return tuple(links)


def read_level(words: Words, stops: tuple[str | None, ...]) -> Level:
    """A level up to one of the words that end it, which is left."""
    level = Level()
    while words.word not in stops:
        read_item(words, level)
        words.take(',')
    return level


def read_item(words: Words, level: Level) -> None:
    """Reads one item of a level."""
    if words.word == '(':
        level.rules.append(words.nested())
        return
    word = words.next()
    if word == '{':
        level.membranes.append(read_level(words, ('}',)))
        words.next()
    elif word[0] == '@':
        level.rule_contexts.append(word)
    elif word[0] == '$':
        read_context(words, level, word)
    elif word[0] == 'L' and words.take('='):
        level.leaves.append(('=', word, words.next()))
    else:
        links = read_links(words)
        level.leaves.append(('atom', (word, len(links)), links))


def read_context(words: Words, level: Level, name: str) -> None:
    """Reads what stands behind the name of a context: `$p`, `$p[]` or `$x[L0]`."""
    if not words.take('['):
        level.rests.append((name, False))
    elif words.take(']'):
        level.rests.append((name, True))
    else:
        level.leaves.append(('typed', name, words.next()))
        words.next()


def read_expression(words: Words) -> Expression:
    """An expression: a number, a context, or an operator with two expressions."""
    left = read_product(words)
    while words.word in ('+', '-'):
        left = (words.next(), left, read_product(words))
    return left


def read_product(words: Words) -> Expression:
    left = read_factor(words)
    while words.word in ('*', '/', 'mod'):
        left = (words.next(), left, read_factor(words))
    return left


def read_factor(words: Words) -> Expression:
    if words.take('('):
        inner = read_expression(words)
        words.next()
        return inner
    word = words.next()
    return word if word[0] == '$' else int(word)


def contexts_of(expression: Expression) -> set[str]:
    """The contexts of an expression."""
    if isinstance(expression, tuple):
        return contexts_of(expression[1]) | contexts_of(expression[2])
    return {expression} if isinstance(expression, str) else set()


def value_of(expression: Expression, values: dict[str, int]) -> int | None:
    """The value of an expression, or None where a divisor is zero or a value has more than 64 bits."""
    if isinstance(expression, int):
        return expression
    if isinstance(expression, str):
        return values[expression]
    sign, left, right = expression[0], value_of(expression[1], values), value_of(expression[2], values)
    if left is None or right is None or sign in ('/', 'mod') and right == 0:
        return None
    value = {'+': sum_of, '-': difference_of, '*': product_of, '/': quotient_of, 'mod': rest_of}[sign](left, right)
    return value if LOW <= value <= HIGH else None


def sum_of(left: int, right: int) -> int:
    return left + right


def difference_of(left: int, right: int) -> int:
    return left - right


def product_of(left: int, right: int) -> int:
    return left * right


def quotient_of(left: int, right: int) -> int:
    """The quotient, toward zero."""
    return abs(left) // abs(right) * (1 if (left < 0) == (right < 0) else -1)


def rest_of(left: int, right: int) -> int:
    """The rest of the division toward zero."""
    return left - quotient_of(left, right) * right


class Guard:
    """The conditions of a rule, and the kind that they say of each typed context.

    A condition is ('compare', test, left, right), ('bind', name, expression), or ('equal' or 'differ', name, name).
    """

    def __init__(self, words: Words, held: set[str]) -> None:
        self.conditions, self.kinds, self.held, self.bound = [], {}, held, set()
        while words.word is not None and words.word != '|':
            self.read_condition(words)
            words.take(',')
        words.take('|')

    def read_condition(self, words: Words) -> None:
        if words.word in KINDS:
            kind = words.next()
            words.next()
            self.say(kind, {words.next()})
            words.next()
            return
        left = read_expression(words)
        sign = words.next()
        right = read_expression(words)
        if sign in COMPARISONS:
            self.say('int', contexts_of(left) | contexts_of(right))
            self.conditions.append(('compare', COMPARISONS[sign], left, right))
        elif sign == '=' and left not in self.held and left not in self.bound:
            self.say('int', contexts_of(right))
            self.bound.add(left)
            self.conditions.append(('bind', left, right))
        else:
            self.say('ground', {left, right})
            self.conditions.append(('equal' if sign == '=' else 'differ', left, right))

    def say(self, kind: str, names: set[str]) -> None:
        """The narrowest kind that is said of a context counts."""
        for name in names & self.held:
            self.kinds[name] = max(kind, self.kinds.get(name, kind), key=KINDS.index)


class HeadItem:
    """An atom or a membrane of a head.

    `entry` is the earlier atom, its port and the item's own by which an atom is reached, or None; `checks` are its own ports
    with the atom and the port that must be at the other end, an earlier one or its own.
    """
    __slots__ = ('level', 'functor', 'entry', 'checks')

    def __init__(self, level: int, functor: Functor | None = None) -> None:
        self.level, self.functor, self.entry, self.checks = level, functor, None, []


class Head:
    """A head in the order of its items, links resolved to the ports at which they stand."""

    def __init__(self, top: Level) -> None:
        self.items, self.levels, self.outermost, self.ports, self.atoms = [], [], [], {}, 0
        self.typed, self.counts = [], {}
        self.add(top, 0)
        self.resolve()
        self.is_flat = len(self.levels) == 1

    def add(self, level: Level, outermost: int) -> None:
        """Adds the items of a level, and of those in it."""
        number = len(self.levels)
        self.levels.append(level)
        self.outermost.append(outermost)
        for leaf in level.leaves:
            if leaf[0] == 'atom':
                self.add_atom(number, leaf)
            else:
                self.typed.append((leaf[1], number, leaf[2]))
                self.counts[leaf[2]] = self.counts.get(leaf[2], 0) + 1
        for inner in level.membranes:
            self.items.append(HeadItem(number))
            self.add(inner, outermost or len(self.levels))

    def add_atom(self, number: int, leaf: Leaf) -> None:
        item = HeadItem(number, leaf[1])
        for port, link in enumerate(leaf[2]):
            self.counts[link] = self.counts.get(link, 0) + 1
            if link in self.ports:
                other, there = self.ports[link][0]
                if item.entry is None and other != self.atoms:
                    item.entry = (other, there, port)
                else:
                    item.checks.append((port, other, there))
            self.ports.setdefault(link, []).append((self.atoms, port))
        self.items.append(item)
        self.atoms += 1

    def resolve(self) -> None:
        """The ports whose links occur once, with the outermost membrane out of which they must lead."""
        levels = [item.level for item in self.items if item.functor]
        self.leaving = [
            (atom, port, self.outermost[levels[atom]])
            for link, ends in self.ports.items() for atom, port in ends if self.counts[link] == 1 and levels[atom]
        ]
        self.holders = [(name, level, *self.ports[link][0]) for name, level, link in self.typed]

    def may_permute(self) -> bool:
        """Whether two matches might take the same items, each of them in another place of the head.

        So it may be where a typed context can hold what is an image in another match, where two membranes stand side by side, and
        where atoms of one functor can change places without that a link of the head leads elsewhere.
        """
        sides = [item.level for item in self.items if item.functor is None]
        if self.typed or len(set(sides)) < len(sides):
            return True
        ends = {one: other for pair in self.ports.values() if len(pair) == 2 for one, other in (pair, pair[::-1])}
        equal: dict[tuple[int, Functor], list[int]] = {}
        for number, item in enumerate(item for item in self.items if item.functor):
            if item.functor[1]:
                equal.setdefault((item.level, item.functor), []).append(number)
        groups = [group for group in equal.values() if len(group) > 1]
        if any(len(group) > MOST_PERMUTED for group in groups):
            return True
        orders = itertools.product(*map(itertools.permutations, groups))
        next(orders)
        return any(leads_alike(ends, dict(zip(itertools.chain(*groups), itertools.chain(*order)))) for order in orders)


def leads_alike(ends: dict[tuple[int, int], tuple[int, int]], images: dict[int, int]) -> bool:
    """Whether atoms of a head can change places so that the links which join two of its ports could join them still."""
    for (one, port), (other, there) in ends.items():
        first, second = (images.get(one, one), port), (images.get(other, other), there)
        if ends.get(first, second) != second or ends.get(second, first) != first:
            return False
    return True


class Rule:
    """A printed rule, with a number of its own.

    `quiet` is its text in parentheses where it waits for an atom that isn't there, `armed` where it waits for the one that is, and
    makes its `sign` too, an atom by which one sees that it fired; both also as forms. `entries` are the links of its head, each with an atom and a port at which it stands;
    `reused` the new links of its body that take over the number of a link that goes, so that firings which don't meddle with
    each other make one process in any order.
    """

    def __init__(self, text: str, number: int, family: Rules) -> None:
        self.text, self.number, self.family = text, number, family
        waiting = family.waiting(text)
        self.sign = f"{family.sign} {number}.'"
        self.quiet, self.armed = f'({family.stop}, {waiting})', f'({family.go}, {with_first(waiting, self.sign)})'
        self.quiet_form, self.armed_form = self.quiet.replace('%', '%%'), self.armed.replace('%', '%%')
        words = Words(text)
        top = read_level(words, (':-',))
        words.next()
        self.head = Head(top)
        self.guard = Guard(words, {name for name, *_ in self.head.typed}) if has_guard(text) else Guard(Words(''), set())
        self.body = read_level(words, (None,))
        self.closed = {name for level in self.head.levels for name, is_closed in level.rests if is_closed}
        self.needed = {item.functor for item in self.head.items if item.functor and not item.level}
        self.entries = [(link, *ends[0]) for link, ends in self.head.ports.items()]
        self.reused, self.may_permute = self.links_taken_over(), self.head.may_permute()
        self.holders = {name: (atom, port) for name, _, atom, port in self.head.holders}
        self.connectors = [leaf[1:] for level in self.body.below() for leaf in level.leaves if leaf[0] == '=']

    def links_taken_over(self) -> list[tuple[str, str]]:
        """Pairs of a new link of the body and a link of the head that goes."""
        made = [link for level in self.body.below() for leaf in level.leaves for link in links_of_leaf(leaf)]
        going = [link for link in self.head.ports if self.head.counts[link] == 2 and link not in made]
        return list(zip(dict.fromkeys(link for link in made if link not in self.head.ports), going))

    @functools.cached_property
    def made_rules(self) -> dict[Level, list[Rule]]:
        """For each level of the body the rules that stand in it as written, by the level."""
        return {level: [self.family.rule(text) for text in level.rules] for level in self.body.below()}


def links_of_leaf(leaf: Leaf) -> tuple[str, ...]:
    """The links of a leaf of a level."""
    return leaf[2] if leaf[0] == 'atom' else leaf[2:] if leaf[0] == 'typed' else leaf[1:]


def has_guard(text: str) -> bool:
    """Whether a printed rule has a guard: a bar that isn't in a rule of its body."""
    return end_of_guard(text) is not None


def end_of_guard(text: str) -> int | None:
    """The place behind the bar of a printed rule, if it has a guard."""
    words = Words(text)
    while words.word not in (None, '|'):
        if words.word == '(' and text[words.start - 1] in ' {':
            words.nested()
        else:
            words.next()
    return words.start + 1 if words.word == '|' else None


def with_first(text: str, atom: str) -> str:
    """A printed rule whose body makes one atom more, before all others."""
    words = Words(text)
    while words.word != ':-':
        words.next()
    start = end_of_guard(text) or words.start + 2
    body = text[start:].strip()
    return f'{text[:start]} {atom}' + (f', {body}' if body else '')


class Rules:
    """Rules by their texts, the labels of their processes, and atoms whose names stand in none of them.

    Rules wait for `go` or `stop`; with `sign` the names of atoms begin that tell which rule fired; a `fence` stands between atoms of a
    copy, so that what is printed tells which of them went.
    """

    def __init__(self, text: str = '') -> None:
        self.go, self.stop, self.sign, self.rules, fence = "'.go.'", "'.stop.'", "'.by", {}, "'.:'"
        self.labels = Labels(next(letter for letter in map(chr, itertools.count(1)) if letter not in text))
        while self.go in text or self.stop in text:
            self.go, self.stop = self.go[:-1] + ".'", self.stop[:-1] + ".'"
        while self.sign in text:
            self.sign += '.'
        while fence in text:
            fence = fence[:-1] + ":'"
        self.fence = self.labels.label((fence, 0), ())

    def rule(self, text: str) -> Rule:
        """The rule with a text."""
        if text not in self.rules:
            self.rules[text] = Rule(text, len(self.rules), self)
        return self.rules[text]

    def waiting(self, text: str) -> str:
        """A rule's text in which the rules that it makes wait for what isn't there."""
        parts, at, words = [], 0, Words(text)
        while words.word is not None:
            if words.word == '(' and text[words.start - 1] in ' {':
                start = words.start
                inner = words.nested()
                if ' :- ' in inner:
                    parts += [text[at:start], f'({self.stop}, {self.waiting(inner)})']
                    at = start + len(inner) + 2
            else:
                words.next()
        return ''.join(parts) + text[at:]
