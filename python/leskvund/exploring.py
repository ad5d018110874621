"""Explores a text: all processes that can be reached, with the firings among them, and the heads that are asked about."""
from __future__ import annotations

import os
import tempfile
from collections.abc import Callable, Iterable, Mapping, Sequence
from functools import cached_property
from typing import Any

from leskvund.certifying import Certifier, stop
from leskvund.patterns import Rule, Rules
from leskvund.program import Unshowable, printed_by
from leskvund.reaching import Graph
from leskvund.regions import joined, line_of, region_of_line
from leskvund.searching import Reached, search
from leskvund.texts import names_at_top

MOST_PROCESSES = 10000
MOST_LETTERS = 70

Watch = Callable[[Reached, int, float], bool | None]


def first_line(words: Sequence[str]) -> str:
    """The plain line of a text's own process."""
    return next(printed_by([*words, '--budget', '0']))


def rule_that_looks(head: str, folder: str) -> str:
    """The printed rule that has this head, and makes what it takes."""
    before, mark, guard = head.partition(':-')
    file = os.path.join(folder, 'head.lmn')
    with open(file, 'w', encoding='utf-8') as text:
        text.write(f'{before.rstrip().rstrip(".")} \\ :- {guard.strip().rstrip(".|") + " | " if mark else ""}.\n')
    try:
        line = first_line([file])
    except Unshowable as why:
        raise Unshowable(f'{head}: {str(why).replace(file + ": ", "")}', why.status) from None
    return line.rstrip('\n')[1:-2]


class Heads:
    """Heads that are asked about, by what is asked of them, as rules that look for them."""

    def __init__(self, heads: Mapping[str, Iterable[str]], folder: str) -> None:
        self.texts = {what: [(head, rule_that_looks(head, folder)) for head in each] for what, each in heads.items()}
        self.rules: dict[str, list[tuple[str, Rule]]] = {}

    def resolve(self, family: Rules) -> list[Rule]:
        """Makes the rules those of a family. They are answered, each once."""
        self.rules = {what: [(head, family.rule(text)) for head, text in pairs] for what, pairs in self.texts.items()}
        return list(dict.fromkeys(rule for pairs in self.rules.values() for _, rule in pairs))

    def pairs(self, what: str) -> list[tuple[str, Rule]]:
        """The heads of which this is asked, each with its rule."""
        return self.rules.get(what, [])


class Exploration:
    """What was explored. Processes are numbers, the first one 0, the nearest first.

    The processes from `asked` on weren't asked for their firings, which is so where more can be reached than were wanted, or
    where the watch stopped it. `firings_made`, `copies` and `runs` tell what the program was asked.
    """

    def __init__(self, reached: Reached, certifier: Certifier, heads: Heads, names: Mapping[str, str]) -> None:
        self.reached, self.heads, self.names = reached, heads, names
        self.firings_made, self.copies, self.runs = certifier.firings, certifier.questions, certifier.calls
        self.asked, self.is_whole, self.is_stopped, self.ends = reached.asked, reached.is_whole, reached.is_stopped, reached.ends()

    def __len__(self) -> int:
        return len(self.reached.layouts)

    @cached_property
    def graph(self) -> Graph:
        """What can be said of all firings."""
        return Graph(self.reached.firings, self.asked)

    @cached_property
    def processes(self) -> list[str]:
        """Each process as a person reads it: folded, without rules."""
        return [self.reached.told(number) for number in range(len(self))]

    def line(self, number: int) -> str:
        """A process as the program prints it."""
        return line_of(joined(self.reached.layouts[number]))

    @cached_property
    def lines(self) -> list[str]:
        """Each process as the program prints it."""
        return [self.line(number) for number in range(len(self))]

    @property
    def rules(self) -> list[list[tuple[Rule, int]]]:
        """For each process the rules that fire in it, each with the process to which it leads."""
        return self.reached.firings

    @cached_property
    def firings(self) -> list[list[tuple[str, int]]]:
        """For each process the labels of rules that fire in it, each with the process to which it leads."""
        return [[(self.label(rule), to) for rule, to in firings] for firings in self.reached.firings]

    def label(self, rule: Rule) -> str:
        """The name of a rule, or how it begins."""
        return label_of(rule, self.names)

    def depth(self, number: int) -> int:
        """How many firings lead to a process at least."""
        return self.reached.depths[number]

    def way_to(self, number: int) -> list[tuple[Rule, int]]:
        """The firings of a shortest way to a process: each the rule and the process to which it leads."""
        return self.reached.way_to(number)

    def where(self, rule: Rule) -> list[int]:
        """The processes in which a head that was asked about matches, by the rule that looks for it."""
        return [number for number in range(self.asked) if rule in self.reached.hits[number]]

    def matches(self) -> dict[str, list[int]]:
        """For each head that was asked about the processes in which it matches."""
        return {head: self.where(rule) for pairs in self.heads.rules.values() for head, rule in pairs}


def label_of(rule: Rule, names: Mapping[str, str]) -> str:
    """The name of a rule, or how it begins."""
    return shortened(names.get(rule.text) or rule.text.strip(), MOST_LETTERS)


def shortened(text: str, most: int) -> str:
    """A text of at most so many letters, three dots at its end where it was longer."""
    return text if len(text) <= most else text[:most - 3] + '...'


def names_of(words: Sequence[str], root: Any) -> dict[str, str]:
    """The names of the rules at the root by their texts."""
    names = names_at_top(words)
    return {rule.text: name for rule, name in zip(root.rules, names) if name} if len(names) == len(root.rules) else {}


def explored(words: Sequence[str], heads: Mapping[str, Iterable[str]] | None = None, most: int = MOST_PROCESSES, watch: Watch | None = None, anywhere: bool = False) -> Exploration:
    """Explores the text that words of `run` name, up to so many processes.

    `heads` are asked about in each process, at the root, or `anywhere`; they are named by what is asked of them. `watch` is told
    how far it is, and answers whether to stop. Unshowable is raised where the program refuses the text or a head, or doesn't print what was foretold.
    """
    with tempfile.TemporaryDirectory() as folder:
        line, asked = first_line(words), Heads(heads or {}, folder)
        family = Rules(line + ''.join(text for pairs in asked.texts.values() for _, text in pairs))
        root = region_of_line(line, family)
        certifier = Certifier(folder)
        try:
            reached = search(root, family, asked.resolve(family), most, certifier, watch or unwatched, anywhere)
        finally:
            stop(certifier)
    return Exploration(reached, certifier, asked, names_of(words, root))


def unwatched(reached: Reached, waiting: int, seconds: float) -> None:
    """Watches nothing."""
