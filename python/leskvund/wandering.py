"""Runs of a text in which the order of rules, items and membranes is drawn anew at each firing.

Each firing is foretold, and made by the program in a copy of the whole process, as the search for all runs has them made; so are the
rules asked before it, which have no match, and at an end all rules.
"""
from __future__ import annotations

from collections.abc import Callable, Iterator
from random import Random
from typing import TYPE_CHECKING

from leskvund.asking import Question, orders_with
from leskvund.firing import Firing
from leskvund.following_rules import chosen
from leskvund.matching import drawn_match
from leskvund.regions import joined
from leskvund.searching import seldom_collecting

if TYPE_CHECKING:
    from leskvund.certifying import Certifier
    from leskvund.labels import Layout
    from leskvund.matching import Match
    from leskvund.patterns import Rule, Rules
    from leskvund.regions import Region

# So many firings of a run are kept.
MOST_KEPT = 40


class Wandered:
    """A run: its end word, its last process, how many firings, and the first of them: each the rule, and the next process."""

    def __init__(self, layout: Layout) -> None:
        self.layout, self.firings = layout, 0
        self.way: list[tuple[Rule, Layout]] = []
        self.word: str | None = None


def size_of(layout: Layout) -> int:
    """How many items a process has as the program counts them: atoms, membranes and rules."""
    return len(layout.labels) + len(layout.rules) + sum([1 + size_of(inner) for inner in layout.inner])


def drawn(root: Region, chance: Random) -> tuple[list[Rule], Region, Match] | None:
    """The rule that fires in an order that is drawn, behind those of its membrane that were asked before; the membrane; the match."""
    regions = [region for region in root.below() if region.rules]
    for region in chance.sample(regions, len(regions)):
        rules = list(dict.fromkeys(region.rules))
        chance.shuffle(rules)
        for number, rule in enumerate(rules, 1):
            match = drawn_match(rule, region, chance)
            if match:
                return rules[:number], region, match
    return None


def first(root: Region) -> tuple[list[Rule], Region, Match] | None:
    """The rule that `run` takes, behind those of its membrane that it asks before; the membrane; the match."""
    found = chosen(root, 0, lambda *_: 0)
    if found is None:
        return None
    rule, region, match = found
    rules = list(dict.fromkeys(region.rules))
    return rules[:rules.index(rule) + 1], region, match


class Wanderer:
    """Makes runs of one text. `firings` and `items` are the most that a run may come to."""

    def __init__(self, layout: Layout, family: Rules, certifier: Certifier, firings: int, items: int) -> None:
        self.layout, self.family, self.certifier, self.firings, self.items = layout, family, certifier, firings, items

    @seldom_collecting()
    def run(self, chance: Random | None, watch: Callable[[Wandered], bool]) -> Wandered:
        """A run whose orders are drawn; without a chance they are those of `run`. It ends early where the watch says so."""
        run = Wandered(self.layout)
        while run.word is None:
            self.step(run, chance)
            if watch(run):
                run.word = run.word or 'stopped'
        return run

    def step(self, run: Wandered, chance: Random | None) -> None:
        """A firing that is foretold, and that the program is asked for."""
        root = joined(run.layout)
        found = drawn(root, chance) if chance else first(root)
        if found is None:
            run.word = 'irreducible'
            self.ask_for_none(root)
            return
        if run.firings == self.firings:
            run.word = 'budget'
            return
        rules, region, match = found
        firing = Firing(root, rules[-1], match)
        self.certifier.ask(Question(root, self.family, {region: rules}, orders_with(rules[-1], match), firing))
        layout = firing.layout()
        if size_of(layout) > self.items:
            run.word = 'full'
            return
        run.layout, run.firings = layout, run.firings + 1
        if len(run.way) < MOST_KEPT:
            run.way.append((rules[-1], layout))

    def ask_for_none(self, root: Region) -> None:
        """At an end no rule can fire."""
        by_depth: dict[int, dict[Region, list[Rule]]] = {}
        for region in root.below():
            if region.rules:
                by_depth.setdefault(region.depth(), {})[region] = list(dict.fromkeys(region.rules))
        for armed in by_depth.values():
            self.certifier.ask(Question(root, self.family, armed))


def wander(wanderer: Wanderer, runs: int, seed: int, watch: Callable[[Wandered], bool]) -> Iterator[Wandered]:
    """So many runs, the first as `run` makes it."""
    for number in range(runs):
        yield wanderer.run(Random(f'{seed} {number}') if number else None, watch)
