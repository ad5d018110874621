"""A process that is joined: its atoms know where they stand, and what is at the other ends of their links. It isn't changed."""
from __future__ import annotations

from collections.abc import Callable, Iterator, Sequence
from typing import TYPE_CHECKING, Any

from leskvund.labels import Layout
from leskvund.lines import read_process

if TYPE_CHECKING:
    from leskvund.labels import Functor, Label
    from leskvund.lines import Item, Process
    from leskvund.patterns import Rule, Rules


class Atom:
    """An atom where it stands: its label, the membrane round it, and for each link the atom and the port at its other end."""
    __slots__ = ('label', 'functor', 'links', 'number', 'form', 'text', 'is_free', 'home', 'ends')

    def __init__(self, label: Label, home: Region) -> None:
        self.label, self.functor, self.links, self.number, self.form, self.text, self.home = label, label.functor, label.links, label.number, label.form, label.text, home
        self.is_free = not label.links
        self.ends = [None] * len(label.links)


class Region:
    """A membrane that is joined: where it lies, what is in its three lists, and whether links go through its wall."""
    __slots__ = ('layout', 'parent', 'atoms', 'inner', 'rules', 'index', 'groups', 'is_open')

    def __init__(self, layout: Layout, parent: Region | None) -> None:
        self.layout, self.parent, self.atoms, self.inner, self.rules, self.index, self.groups, self.is_open = layout, parent, [], [], layout.rules, None, None, False

    @property
    def is_free(self) -> bool:
        """Whether it can be exchanged with another membrane."""
        return self.parent is not None and len(self.parent.alike(self)) > 1

    def below(self) -> Iterator[Region]:
        """The membrane and all in it, an outer one before an inner one, in their order."""
        todo = [self]
        while todo:
            region = todo.pop()
            yield region
            todo += reversed(region.inner)

    def with_functor(self, functor: Functor) -> list[Atom]:
        """The atoms with a functor, in their order."""
        if self.index is None:
            self.index = {}
            for atom in self.atoms:
                self.index.setdefault(atom.functor, []).append(atom)
        return self.index.get(functor, ())

    def alike(self, item: Any) -> Sequence[Any]:
        """The items of this membrane that can be exchanged with one of them, itself among them, in their order.

        They are the atoms of one name without links, and the membranes with one text through whose walls no link goes.
        """
        if type(item) is Atom:
            return self.with_functor(item.functor) if item.is_free else (item,)
        if item.is_open or len(self.inner) == 1:
            return (item,)
        if self.groups is None:
            self.groups = {}
            for inner in self.inner:
                if not inner.is_open:
                    self.groups.setdefault(inner.layout.shape(), []).append(inner)
        return self.groups[item.layout.shape()]

    def depth(self) -> int:
        """How many membranes stand round this one."""
        return sum(1 for _ in self.above())

    def above(self) -> Iterator[Region]:
        """The membranes round this one, the nearest first."""
        region = self.parent
        while region is not None:
            yield region
            region = region.parent

    def holds(self, region: Region | None) -> bool:
        """Whether a membrane is this one or in it."""
        while region is not None and region is not self:
            region = region.parent
        return region is self


def joined(layout: Layout) -> Region:
    """The root of the process that is written down so."""
    root, places = Region(layout, None), {}
    todo = [root]
    while todo:
        region = todo.pop()
        for label in region.layout.labels:
            atom = Atom(label, region)
            region.atoms.append(atom)
            for port, link in enumerate(label.links):
                other = places.pop(link, None)
                if other is None:
                    places[link] = atom, port
                    continue
                atom.ends[port] = other
                other[0].ends[other[1]] = atom, port
                if other[0].home is not region:
                    open_walls(other[0].home, region)
        region.inner = [Region(inner, region) for inner in region.layout.inner]
        todo += reversed(region.inner)
    return root


def open_walls(one: Region, other: Region) -> None:
    """Notes that a link goes from one membrane to another."""
    round_one = [one, *one.above()]
    while other not in round_one:
        other.is_open = True
        other = other.parent
    for region in round_one:
        if region is other:
            return
        region.is_open = True


def links_of(root: Region) -> set[int]:
    """The links of a process."""
    return {link for region in root.below() for atom in region.atoms for link in atom.links}


def layout_of(process: Process, rules: Rules) -> Layout:
    """The layout of a process that was read."""
    layouts = [None] * len(process.membranes)
    for number in reversed(range(len(layouts))):
        membrane = process.membranes[number]
        labels = [rules.labels.label((name_of(item), len(item.links)), tuple(item.links)) for item in membrane.items]
        layouts[number] = Layout(labels, [layouts[inner] for inner in membrane.membranes], [rules.rule(text) for text in membrane.rules])
    return layouts[0]


def name_of(item: Item) -> str:
    """The name of a plain item as it is written."""
    return item.pieces[0][:-1] if item.links else item.pieces[0]


def region_of_line(line: str, rules: Rules) -> Region:
    """The joined root of the process of a plain line."""
    return joined(layout_of(read_process(line.rstrip('\n')), rules))


def line_of(root: Region) -> str:
    """The plain line of a process."""
    number = Numbers().text
    parts = plain_parts(root.layout, number) + [f'({rule.text})' for rule in root.rules]
    return ' '.join(part + '.' for part in parts)


def plain_parts(layout: Layout, number: Callable[[int], str]) -> list[str]:
    """The texts of the items of a membrane, the membranes in it with their rules."""
    parts = [label.form % tuple(map(number, label.links)) for label in layout.labels]
    for inner in layout.inner:
        parts.append('{' + ', '.join(plain_parts(inner, number) + [f'({rule.text})' for rule in inner.rules]) + '}')
    return parts


class Numbers:
    """Gives each link the next number when it is met first."""

    def __init__(self) -> None:
        self.numbers = {}

    def text(self, link: int) -> str:
        return f'L{self.numbers.setdefault(link, len(self.numbers))}'


def all_rules(root: Region) -> list[Rule]:
    """The rules of a process, those in membranes too, and those that they make, each once."""
    found, todo = {}, [rule for region in root.below() for rule in region.rules]
    for rule in todo:
        if rule not in found:
            found[rule] = None
            todo += [rule.family.rule(text) for level in rule.body.below() for text in level.rules]
    return list(found)
