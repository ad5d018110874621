"""Finds the matches of a rule in a membrane, each one or the first, by the rules of the language."""
from __future__ import annotations

from collections.abc import Container, Sequence
from random import Random
from typing import TYPE_CHECKING, Any

from leskvund.patterns import is_integer, value_of

if TYPE_CHECKING:
    from leskvund.patterns import HeadItem, Rule
    from leskvund.regions import Atom, Region

    # For each typed context the atoms that it stands for.
    Parts = dict[str, list[Atom]]


class Match:
    """A match: the image of each item of the head, in their order; the atoms and membranes among them; parts and values."""
    __slots__ = ('images', 'atoms', 'membranes', 'parts', 'values')

    def __init__(self, images: list[Any], atoms: list[Atom], membranes: list[Region], parts: Parts, values: dict[str, int]) -> None:
        self.images, self.atoms, self.membranes, self.parts, self.values = images, atoms, membranes, parts, values

    def taken(self) -> set[Any]:
        """The items that a firing takes: the images, and the atoms of typed contexts."""
        return set(self.images).union(*self.parts.values())


class Search:
    """A search for the matches of a rule in a membrane, in the order in which the program would find them.

    Of items that can be exchanged (Region.alike) only the first that is left is tried: each other match is one that is found with
    two of them exchanged.
    """

    def __init__(self, rule: Rule, home: Region, only_first: bool = False) -> None:
        self.rule, self.head, self.only_first = rule, rule.head, only_first
        self.images, self.atoms, self.membranes, self.used, self.found = [], [], [home], set(), []
        self.fill(0)

    def fill(self, number: int) -> bool:
        """Tries each image of an item. Whether the search is over."""
        if number == len(self.head.items):
            self.keep()
            return bool(self.found) and self.only_first
        item = self.head.items[number]
        region = self.membranes[item.level]
        if item.functor is None:
            return self.fill_membrane(number, region)
        for atom in self.candidates(item, region):
            if atom not in self.used and self.is_joined(item, atom):
                self.images.append(atom)
                self.atoms.append(atom)
                self.used.add(atom)
                over = self.fill(number + 1)
                self.used.remove(atom)
                self.atoms.pop()
                self.images.pop()
                if over:
                    return True
        return False

    def fill_membrane(self, number: int, region: Region) -> bool:
        for inner in self.membranes_in(region):
            if inner not in self.used and self.is_first_left(inner, region):
                self.images.append(inner)
                self.membranes.append(inner)
                self.used.add(inner)
                over = self.fill(number + 1)
                self.used.remove(inner)
                self.membranes.pop()
                self.images.pop()
                if over:
                    return True
        return False

    def membranes_in(self, region: Region) -> list[Region]:
        """The membranes that an item may be, and others."""
        return region.inner

    def is_first_left(self, inner: Region, region: Region) -> bool:
        """Whether a membrane is the first that is left of those that can be exchanged with it."""
        group = region.alike(inner)
        return len(group) == 1 or next(it for it in group if it not in self.used) is inner

    def candidates(self, item: HeadItem, region: Region) -> list[Atom]:
        """The atoms that an item may be."""
        if item.entry:
            other, there, port = item.entry
            atom, entered = self.atoms[other].ends[there]
            return [atom] if entered == port and atom.home is region and atom.functor == item.functor else []
        atoms = region.with_functor(item.functor)
        return atoms if item.functor[1] else [it for it in atoms if it not in self.used][:1]

    def is_joined(self, item: HeadItem, atom: Atom) -> bool:
        """Whether the links of an atom lead to earlier ones as those of the item do."""
        for port, other, there in item.checks:
            end = atom.ends[port]
            if end[1] != there or end[0] is not (atom if other == len(self.atoms) else self.atoms[other]):
                return False
        return True

    def keep(self) -> None:
        """Keeps the images if they are a match."""
        if not self.links_leave():
            return
        parts, in_level = {}, {}
        for name, level, holder, port in self.head.holders:
            parts[name] = part = self.part(name, self.membranes[level], *self.atoms[holder].ends[port])
            if part is None:
                return
            in_level.setdefault(level, set()).update(part)
        if all(self.fits(number, in_level.get(number, ())) for number in range(1, len(self.membranes))):
            values = self.guarded(parts)
            if values is not None:
                self.found.append(Match(list(self.images), list(self.atoms), list(self.membranes), parts, values))

    def links_leave(self) -> bool:
        """Whether each link that occurs once leads out of the outermost membrane round it."""
        return not any(self.membranes[outer].holds(self.atoms[atom].ends[port][0].home) for atom, port, outer in self.head.leaving)

    def part(self, name: str, home: Region, root: Atom, entry: int) -> list[Atom] | None:
        """The atoms that a typed context stands for, its root first, each before what its links lead to; or None."""
        kind = self.rule.guard.kinds.get(name, 'ground')
        if kind != 'ground' and len(root.links) != 1 or kind == 'int' and not is_integer(root.functor):
            return None
        part, seen, todo = [], set(), [(root, entry)]
        while todo:
            atom, entered = todo.pop()
            if atom in seen:
                continue
            if atom.home is not home or atom in self.used:
                return None
            seen.add(atom)
            part.append(atom)
            todo += [end for port, end in reversed(list(enumerate(atom.ends))) if (atom, port) != (root, entry)]
        return part

    def fits(self, number: int, parts: Any) -> bool:
        """Whether the image of a head membrane holds no more than the head allows."""
        level, region = self.head.levels[number], self.membranes[number]
        if region.rules and not level.rule_contexts:
            return False
        if not level.rests:
            return all(it in self.used or it in parts for it in region.atoms) and all(it in self.used for it in region.inner)
        return not level.rests[0][1] or is_closed(*self.rest(region, parts))

    def rest(self, region: Region, parts: Any) -> tuple[list[Atom], list[Region]]:
        """What a membrane holds that isn't matched: its atoms and membranes."""
        return [it for it in region.atoms if it not in self.used and it not in parts], [it for it in region.inner if it not in self.used]

    def guarded(self, parts: Parts) -> dict[str, int] | None:
        """The values of contexts where the guard holds, else None."""
        values = {name: int(part[0].functor[0]) for name, part in parts.items() if self.rule.guard.kinds.get(name) == 'int'}
        for condition in self.rule.guard.conditions:
            if condition[0] == 'compare':
                left, right = value_of(condition[2], values), value_of(condition[3], values)
                if left is None or right is None or not condition[1](left, right):
                    return None
            elif condition[0] == 'bind':
                values[condition[1]] = value_of(condition[2], values)
                if values[condition[1]] is None:
                    return None
            elif self.is_equal(parts, *condition[1:]) != (condition[0] == 'equal'):
                return None
        return values

    def is_equal(self, parts: Parts, one: str, other: str) -> bool:
        """Whether two parts are equal, from their roots on."""
        entries = {name: self.atoms[holder].ends[port] for name, _, holder, port in self.head.holders}
        return graph_of(parts[one], entries[one]) == graph_of(parts[other], entries[other])


def graph_of(part: list[Atom], entry: tuple[Atom, int]) -> list[Any]:
    """A part as a value: two parts have one exactly where they are equal from their roots on."""
    numbers = {atom: number for number, atom in enumerate(part)}
    return [(atom.functor, [(numbers.get(end[0]), end[1]) if (atom, port) != entry else None for port, end in enumerate(atom.ends)]) for atom in part] + [entry[1]]


def is_closed(atoms: list[Atom], membranes: list[Region]) -> bool:
    """Whether no link leads out of these atoms and membranes."""
    rest = set(atoms)
    for membrane in membranes:
        for region in membrane.below():
            rest.update(region.atoms)
    return all(end[0] in rest for atom in rest for end in atom.ends)


def can_match(rule: Rule, home: Region) -> bool:
    """Whether a membrane has an atom for each functor that a head asks for in it."""
    return all(map(home.with_functor, rule.needed))


def matches(rule: Rule, home: Region) -> list[Match]:
    """The matches of a rule in a membrane."""
    return Search(rule, home).found if can_match(rule, home) else []


class Within(Search):
    """A search among some items alone."""

    def __init__(self, rule: Rule, home: Region, items: Container[Any]) -> None:
        self.items = items
        super().__init__(rule, home)

    def candidates(self, item: HeadItem, region: Region) -> list[Atom]:
        return [atom for atom in super().candidates(item, region) if atom in self.items]

    def is_first_left(self, inner: Region, region: Region) -> bool:
        return inner in self.items and super().is_first_left(inner, region)


class Drawn(Search):
    """A search for one match, the items asked in an order that is drawn."""

    def __init__(self, rule: Rule, home: Region, chance: Random) -> None:
        self.chance = chance
        super().__init__(rule, home, True)

    def candidates(self, item: HeadItem, region: Region) -> list[Atom]:
        return self.mixed(super().candidates(item, region))

    def membranes_in(self, region: Region) -> list[Region]:
        return self.mixed(region.inner)

    def mixed(self, items: Sequence[Any]) -> Any:
        return self.chance.sample(items, len(items)) if len(items) > 1 else items


def drawn_match(rule: Rule, home: Region, chance: Random) -> Match | None:
    """A match that the program takes where the lists stand in an order that is drawn, or None."""
    found = Drawn(rule, home, chance).found if can_match(rule, home) else []
    return found[0] if found else None


def matches_within(rule: Rule, home: Region, items: Container[Any]) -> list[Match]:
    """The matches of a rule in a membrane by some items alone."""
    return Within(rule, home, items).found


def first_match(rule: Rule, home: Region) -> Match | None:
    """The match that the program takes, or None."""
    found = Search(rule, home, True).found if can_match(rule, home) else []
    return found[0] if found else None
