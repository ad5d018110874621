"""The reachability graph of a program: all processes that it can reach, and the firings that lead from one to another."""
from __future__ import annotations

import re
import tempfile
from collections.abc import Iterable, Iterator, Sequence
from functools import cached_property
from typing import Any, NamedTuple, overload

from leskvund import exploring, program
from leskvund.calling import find_program, written
from leskvund.errors import LeskvundError, ProgramFailed, error_of
from leskvund.processes import Process, Rule
from leskvund.program import Unshowable

REFUSAL = re.compile(r'E\d\d \d+:\d+ .*$')
HEADS = 'heads'


class Firing(NamedTuple):
    """A firing: the number of a process, the rule, and the number of the process that it makes."""

    start: int
    rule: Rule
    end: int


class ReachabilityGraph(Sequence[Process]):
    """The processes that can be reached, the nearest first, each by its number; the first is the program's own.

    Two processes are one where they differ only in the order of items and rules and the numbers of links. Each firing was made by
    the program, which also showed that no other can be made, but for those that exchange atoms without links that have one name.
    """

    def __init__(self, exploration: exploring.Exploration) -> None:
        self._exploration = exploration
        self.firings_made: int = exploration.firings_made
        """How many firings the program made for it."""

    def __len__(self) -> int:
        return len(self._exploration)

    @overload
    def __getitem__(self, at: int) -> Process: ...

    @overload
    def __getitem__(self, at: slice) -> list[Process]: ...

    def __getitem__(self, at: int | slice) -> Process | list[Process]:
        numbers = range(len(self))[at]
        return [self.process(number) for number in numbers] if isinstance(numbers, range) else self.process(numbers)

    def __iter__(self) -> Iterator[Process]:
        return map(self.process, range(len(self)))

    def __repr__(self) -> str:
        return f'<{len(self)} processes, {len(self.firings)} firings, {len(self.ends)} ends{"" if self.is_whole else "; not all"}>'

    def process(self, number: int) -> Process:
        """A process."""
        return Process(self._exploration.line(number))

    def folded(self, number: int) -> str:
        """A process as a person reads it: terms and lists written as such, without rules."""
        return self._exploration.processes[number]

    @property
    def is_whole(self) -> bool:
        """Whether all was reached; else processes from `asked` on may have firings that aren't known."""
        return self._exploration.is_whole

    @property
    def asked(self) -> int:
        """How many processes were asked for their firings."""
        return self._exploration.asked

    def _rule(self, rule: Any) -> Rule:
        return Rule(rule.text, self._exploration.names.get(rule.text))

    @cached_property
    def firings(self) -> list[Firing]:
        """All firings, by the process from which they lead."""
        return [Firing(start, self._rule(rule), end) for start, firings in enumerate(self._exploration.rules) for rule, end in firings]

    @property
    def ends(self) -> list[int]:
        """The processes that no rule changes."""
        return self._exploration.ends

    def depth(self, number: int) -> int:
        """How many firings lead to a process at least."""
        return self._exploration.depth(number)

    def way_to(self, number: int) -> list[Firing]:
        """The firings of a shortest way to a process."""
        way, start = [], 0
        for rule, end in self._exploration.way_to(number):
            way.append(Firing(start, self._rule(rule), end))
            start = end
        return way

    def matching(self, head: str) -> list[int]:
        """The processes in which a head matches that was given to `explore`; KeyError where it wasn't."""
        return self._exploration.where(dict(self._exploration.heads.pairs(HEADS))[head])

    def circles(self) -> list[list[int]]:
        """The sets of processes in which runs can go on for ever."""
        return self._exploration.graph.circles()

    def livelocks(self) -> list[list[int]]:
        """Those of the circles that can't be left."""
        return [circle for circle in self.circles() if not self._exploration.graph.can_be_left(circle)]

    def can_reach(self, goals: Iterable[int]) -> set[int]:
        """The processes from which one of some can be reached."""
        return self._exploration.graph.can_reach(set(goals))

    def to_svg(self) -> str:
        """A picture: a circle for each process, an arrow for each firing."""
        from leskvund.pictures import picture_of_graph
        return picture_of_graph(self)

    def _repr_svg_(self) -> str | None:
        try:
            return self.to_svg()
        except LeskvundError:
            return None

    def to_networkx(self) -> Any:
        """The graph as a MultiDiGraph of networkx, which has to be installed; `networks.reachability_graph` tells its form."""
        from leskvund.networks import reachability_graph
        return reachability_graph(self)


def reached(text: str, most: int, heads: Sequence[str], anywhere: bool) -> ReachabilityGraph:
    """What a text can reach, up to so many processes. A text or a head that is refused raises `Refused`."""
    program.use(find_program())
    with tempfile.TemporaryDirectory(prefix='leskvund') as folder:
        try:
            return ReachabilityGraph(exploring.explored([written(folder, 0, text)], {HEADS: heads}, most, anywhere=anywhere))
        except Unshowable as why:
            raise error_behind(why) from None


def error_behind(why: Unshowable) -> LeskvundError:
    """The exception of a script's words and status."""
    refusal = REFUSAL.search(str(why))
    return error_of(why.status, refusal.group()) if refusal else ProgramFailed(str(why), why.status)
