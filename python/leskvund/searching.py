"""Goes from a process to all that can be reached, each once, the nearest first."""
from __future__ import annotations

import collections
import contextlib
import gc
import time
from collections.abc import Callable, Iterable, Iterator
from typing import TYPE_CHECKING

from leskvund.asking import Questions
from leskvund.regions import joined
from leskvund.sameness import Kinds
from leskvund.telling import told

if TYPE_CHECKING:
    from leskvund.certifying import Certifier
    from leskvund.labels import Layout
    from leskvund.patterns import Rule, Rules
    from leskvund.regions import Region

# Processes that wait are kept joined, up to so many.
MOST_JOINED = 2000
COLLECTED_AT = 50000


class Reached:
    """What was reached: processes by numbers, how each is told, the firing by which it was met first, and all firings.

    `ways` has for each process the one from which it was met first and the rule, `firings` the rules and the processes to which
    each leads, `hits` the rules asked about that can fire in it. The processes from `asked` on weren't asked about.
    """

    def __init__(self) -> None:
        self.layouts, self.ways, self.firings, self.hits, self.depths, self.asked = [], [], [], [], [], 0
        self.seconds, self.is_stopped = 0, False

    def add(self, layout: Layout, way: tuple[int, Rule] | None) -> None:
        self.layouts.append(layout)
        self.ways.append(way)
        self.firings.append([])
        self.hits.append([])
        self.depths.append(0 if way is None else self.depths[way[0]] + 1)

    @property
    def is_whole(self) -> bool:
        """Whether all that can be reached was."""
        return self.asked == len(self.layouts)

    def told(self, number: int) -> str:
        """A process as a person reads it."""
        return told(joined(self.layouts[number]))

    def ends(self) -> list[int]:
        """The processes that no rule changes."""
        return [number for number in range(self.asked) if not self.firings[number]]

    def way_to(self, number: int) -> list[tuple[Rule, int]]:
        """The firings of a shortest way to a process: pairs of a rule and the process to which it leads."""
        back = []
        while self.ways[number] is not None:
            before, rule = self.ways[number]
            back.append((rule, number))
            number = before
        return back[::-1]


class Met:
    """The processes that were met, by numbers; those that still are to be asked about wait, the nearest first."""

    def __init__(self, family: Rules) -> None:
        self.family, self.kinds, self.layouts, self.numbers, self.waiting = family, Kinds(family.labels), {}, {}, collections.deque()

    def number(self, reached: Reached, layout_number: int, layout: Callable[[], Layout], way: tuple[int, Rule] | None) -> int:
        """The number of a process whose layout is made where it has to be looked at."""
        found = self.layouts.get(layout_number)
        if found is None:
            new = layout()
            root = joined(new)
            kind = self.kinds.process(root)
            found = self.numbers.get(kind)
            if found is None:
                found = self.numbers[kind] = len(reached.layouts)
                reached.add(new, way)
                self.waiting.append(root if len(self.waiting) < MOST_JOINED else None)
            self.layouts[layout_number] = found
        return found

    def next(self, reached: Reached) -> Region:
        """The next process to be asked about."""
        return self.waiting.popleft() or joined(reached.layouts[reached.asked])


@contextlib.contextmanager
def seldom_collecting() -> Iterator[None]:
    """What goes round in circles is looked for less often: a search makes many atoms that live long."""
    before = gc.get_threshold()
    gc.set_threshold(COLLECTED_AT, *before[1:])
    try:
        yield
    finally:
        gc.set_threshold(*before)


@seldom_collecting()
def search(root: Region, family: Rules, others: Iterable[Rule], most: int, certifier: Certifier, watch: Callable[[Reached, int, float], bool | None], anywhere: bool = False) -> Reached:
    """Reaches at most so many processes. `others` are rules that are asked about, `anywhere` or at the root; `watch` is told how far it is, and answers whether to stop."""
    reached, met, start = Reached(), Met(family), time.monotonic()
    met.number(reached, root.layout.number(family.labels), lambda: root.layout, None)
    while met.waiting and len(reached.layouts) <= most and not reached.is_stopped:
        ask_about(reached, met, Questions(met.next(reached), family, others, anywhere), certifier)
        reached.is_stopped = bool(watch(reached, len(met.waiting), time.monotonic() - start))
    certifier.finish()
    reached.seconds = time.monotonic() - start
    return reached


def ask_about(reached: Reached, met: Met, asked: Questions, certifier: Certifier) -> None:
    """Has the firings of the next process certified, and notes where they lead."""
    here, firings = reached.asked, {}
    for question in asked:
        certifier.ask(question)
        if question.is_step:
            firing = question.firing
            firings[firing.rule, met.number(reached, firing.number(), firing.layout, (here, firing.rule))] = None
    reached.firings[here] = list(firings)
    reached.hits[here] = asked.hits
    reached.asked += 1
