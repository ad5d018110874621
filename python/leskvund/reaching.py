"""What can be said of all that is reached: what can go on for ever, what can't be left, and what each run comes by."""
from __future__ import annotations

from collections.abc import Iterable
from typing import TYPE_CHECKING

if TYPE_CHECKING:
    from leskvund.patterns import Rule

    # For each process the rules that fire in it, each with the process to which it leads.
    Firings = list[list[tuple[Rule, int]]]
    # Firings one after the other: each the rule, and the process to which it leads.
    Way = list[tuple[Rule, int]]


def components(firings: Firings, asked: int) -> list[list[int]]:
    """The strongly connected parts of a graph of firings, each a list of processes, a part before those that lead to it."""
    order, low, on, stack, parts, count = {}, {}, set(), [], [], 0
    for first in range(asked):
        if first in order:
            continue
        todo = [(first, iter([to for _, to in firings[first]]))]
        order[first] = low[first] = count
        count += 1
        stack.append(first)
        on.add(first)
        while todo:
            here, targets = todo[-1]
            for to in targets:
                if to not in order:
                    order[to] = low[to] = count
                    count += 1
                    stack.append(to)
                    on.add(to)
                    todo.append((to, iter([it for _, it in firings[to]])))
                    break
                if to in on:
                    low[here] = min(low[here], order[to])
            else:
                todo.pop()
                if todo:
                    low[todo[-1][0]] = min(low[todo[-1][0]], low[here])
                if low[here] == order[here]:
                    parts.append(cut_off(stack, on, here))
    return parts


def cut_off(stack: list[int], on: set[int], last: int) -> list[int]:
    """Takes from a stack down to an element."""
    part = []
    while True:
        part.append(stack.pop())
        on.remove(part[-1])
        if part[-1] == last:
            return part


class Graph:
    """The firings among processes, the first `asked` of which have all their firings here."""

    def __init__(self, firings: Firings, asked: int) -> None:
        self.firings, self.asked = firings, asked
        self.parts = components(firings, asked)

    def can_go_round(self, part: list[int]) -> bool:
        """Whether firings lead from a part into itself."""
        return len(part) > 1 or any(to == part[0] for _, to in self.firings[part[0]])

    def can_be_left(self, part: list[int]) -> bool:
        """Whether a firing leads out of a part, or one isn't known."""
        inside = set(part)
        return any(it >= self.asked or any(to not in inside for _, to in self.firings[it]) for it in part)

    def circles(self) -> list[list[int]]:
        """The parts in which runs can go on for ever, those that can't be left first."""
        found = [sorted(part) for part in self.parts if self.can_go_round(part)]
        return sorted(found, key=lambda part: (self.can_be_left(part), part))

    def can_reach(self, goals: Iterable[int]) -> set[int]:
        """The processes from which one of some can be reached."""
        back = {}
        for one, firings in enumerate(self.firings):
            for _, to in firings:
                back.setdefault(to, []).append(one)
        reached, todo = set(goals), list(goals)
        while todo:
            for one in back.get(todo.pop(), ()):
                if one not in reached:
                    reached.add(one)
                    todo.append(one)
        return reached

    def avoids(self, goals: set[int]) -> tuple[Way, Way | None] | None:
        """A run that never comes to one of some processes: its way to an end, or to a process to which it comes again; or None."""
        if 0 in goals:
            return None
        ways, todo = {0: None}, [0]
        for here in todo:
            if here < self.asked and not self.firings[here]:
                return self.way(ways, here), None
            for rule, to in self.firings[here]:
                if to not in goals and to not in ways:
                    ways[to] = (here, rule)
                    todo.append(to)
        inner = [[(rule, to) for rule, to in firings if to not in goals and to in ways] if here in ways else [] for here, firings in enumerate(self.firings)]
        rounds = [part for part in components(inner, len(inner)) if len(part) > 1 or any(to == part[0] for _, to in inner[part[0]])]
        if not rounds:
            return None
        first = min(min(part) for part in rounds)
        return self.way(ways, first), self.round(inner, first)

    def way(self, ways: dict[int, tuple[int, Rule] | None], number: int) -> Way:
        back = []
        while ways[number] is not None:
            here, rule = ways[number]
            back.append((rule, number))
            number = here
        return back[::-1]

    def round(self, firings: Firings, first: int) -> Way:
        """The firings of a shortest way from a process to itself."""
        ways, todo = {}, [first]
        for here in todo:
            for rule, to in firings[here]:
                if to == first:
                    back = [(rule, first)]
                    while here != first:
                        one, by = ways[here]
                        back.append((by, here))
                        here = one
                    return back[::-1]
                if to not in ways:
                    ways[to] = (here, rule)
                    todo.append(to)
        return []
