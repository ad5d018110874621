"""Follows a run firing by firing, and tells exactly which rule fired: the next process is foretold and must be the printed one."""
from __future__ import annotations

from collections.abc import Callable, Iterator, Sequence
from typing import TYPE_CHECKING

from leskvund.firing import Firing
from leskvund.matching import first_match
from leskvund.patterns import Rules
from leskvund.program import Unshowable
from leskvund.regions import joined, line_of, region_of_line

if TYPE_CHECKING:
    from leskvund.labels import Layout
    from leskvund.matching import Match
    from leskvund.patterns import Rule
    from leskvund.regions import Region

    # Of the number of a firing and that of the membranes, which of them is asked first.
    Choose = Callable[[int, int], int]
    # A rule that can fire, its membrane, and its match.
    Chosen = tuple[Rule, Region, Match]


def chooser(order: str, seed: int) -> Choose:
    """The number of the membrane that is asked first at a firing, of so many."""
    if order == 'turn':
        return lambda firing, count: firing % count
    if order == 'seed':
        return lambda firing, count: ((seed + firing) * 6364136223846793005 + 1442695040888963407) % 2 ** 64 // 2 ** 33 % count
    return lambda firing, count: 0


def chooser_of(words: Sequence[str]) -> Choose | None:
    """The chooser of a run by its options, or None where there is no run."""
    options = {name: value for name, value in zip(words, [*words[1:], '']) if name in ('--order', '--seed')}
    options.update(word.split('=', 1) for word in words if word.startswith(('--order=', '--seed=')))
    return chooser(options.get('--order', 'first'), int(options.get('--seed', '0'))) if words else None


def first_of(region: Region) -> Chosen | None:
    """The first rule of a membrane that can fire, with its match; or None."""
    for rule in region.rules:
        match = first_match(rule, region)
        if match:
            return rule, region, match
    return None


def chosen(root: Region, firing: int, choose: Choose) -> Chosen | None:
    """The rule that fires, its place among the rules of its membrane, and the match; or None."""
    regions = list(root.below())
    start = choose(firing, len(regions))
    return next(filter(None, map(first_of, regions[start:] + regions[:start])), None)


def fired_rules(lines: Iterator[str], choose: Choose) -> Iterator[tuple[Rule, bool] | str]:
    """Of the plain lines of a trace each firing's rule, whether it stands at the root, and the line. It ends with the end line."""
    rules = Rules()
    root = region_of_line(next(lines), rules)
    for firing, line in enumerate(lines):
        if line.startswith('% '):
            yield line[2:].rstrip('\n')
            return
        found = chosen(root, firing, choose)
        if found is None:
            raise Unshowable(f'firing {firing + 1}: no rule is found that can fire')
        rule, region, match = found
        root = joined(Firing(root, rule, match).layout())
        if line_of(root) != line.rstrip('\n'):
            raise Unshowable(f'firing {firing + 1}: it is foretold otherwise\n{line_of(root)}\n{line}')
        yield rule, region.parent is None


class RuleFollower:
    """Tells by which rule each process of a trace became the next one: the rule that makes of it just the line that is printed.

    `choose` tells which membrane is asked first. Without it, where the order isn't known, each membrane is tried; then two rules
    can make one line. Where no rule makes it, none is told.
    """

    def __init__(self, choose: Choose | None = None) -> None:
        self.rules, self.root, self.choose, self.firings = Rules(), None, choose, 0

    def follow(self, line: str) -> list[str]:
        """The texts of the rules by which the last process became the one of this line."""
        before, self.root = self.root, None
        fired = {}
        for rule, layout in self.ways(before) if before else ():
            root = joined(layout)
            if line_of(root) == line:
                fired[rule.text] = root
        self.firings += before is not None
        self.root = next(iter(fired.values()), None) or region_of_line(line, self.rules)
        return list(fired)

    def ways(self, root: Region) -> Iterator[tuple[Rule, Layout]]:
        """The rules that can have fired, each with the process that it makes."""
        found = [chosen(root, self.firings, self.choose)] if self.choose else [first_of(region) for region in root.below()]
        for rule, _, match in filter(None, found):
            yield rule, Firing(root, rule, match).layout()
