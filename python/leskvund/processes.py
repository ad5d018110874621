"""A process as a graph: atoms, the links that join them, and the membranes in which they stand."""
from __future__ import annotations

import re
from collections import Counter
from collections.abc import Iterator
from dataclasses import dataclass, field
from functools import cached_property
from typing import Any, NamedTuple

from leskvund import lines
from leskvund.errors import LeskvundError, ProgramFailed
from leskvund.sameness import is_same
from leskvund.telling import folded_text
from leskvund.terms import Reader

INTEGER = re.compile(r'-?\d+')
FUNCTOR = re.compile(r"('(?:[^']|'')*'|-?\d+|[a-z]\w*)/(\d+)", re.ASCII)
MOST_SHOWN = 100


class Functor(NamedTuple):
    """What atoms of one kind have in common: the name, as the program prints it, and the number of links."""

    name: str
    arity: int

    def __str__(self) -> str:
        return f'{self.name}/{self.arity}'

    @classmethod
    def of(cls, text: str | Functor) -> Functor:
        """The functor of a text as `busy/0`, `'hot water'/1` or `-3/1`; ValueError where it is none."""
        if isinstance(text, Functor):
            return text
        found = FUNCTOR.fullmatch(text)
        if found is None:
            raise ValueError(f'{text!r} is no functor: a name as it is printed, / and the number of links')
        return cls(found.group(1), int(found.group(2)))


@dataclass(frozen=True)
class Rule:
    """A rule as the program prints it, without the parentheses; and its name in the text, where that is known."""

    text: str
    name: str | None = field(default=None, compare=False)

    def __str__(self) -> str:
        return f'{self.name} @@ {self.text.strip()}' if self.name else self.text.strip()


class End(NamedTuple):
    """An end of a link: an atom, and which of its links it is, counted from 0."""

    atom: Atom
    port: int


class Link:
    """A link: its number in the process, and its two ends, which may be at one atom."""

    __slots__ = ('number', 'ends')

    def __init__(self, number: int) -> None:
        self.number = number
        self.ends: tuple[End, ...] = ()

    def __repr__(self) -> str:
        return f'L{self.number}'

    def other_end(self, end: End) -> End:
        """The end that isn't this one."""
        return self.ends[1] if self.ends[0] == end else self.ends[0]


class Atom:
    """An atom: its number in the process, its functor, its links in their order, and the membrane in which it stands."""

    __slots__ = ('number', 'functor', 'links', 'membrane')

    def __init__(self, number: int, functor: Functor, links: tuple[Link, ...], membrane: Membrane) -> None:
        self.number, self.functor, self.links, self.membrane = number, functor, links, membrane

    def __repr__(self) -> str:
        return self.functor.name + (f'({", ".join(map(repr, self.links))})' if self.links else '')

    @property
    def name(self) -> str:
        """The name without quotes."""
        return lines.unquoted(self.functor.name)

    @property
    def value(self) -> int | None:
        """The integer that the name is, or None."""
        return int(self.functor.name) if INTEGER.fullmatch(self.functor.name) else None

    def neighbour(self, port: int) -> End:
        """Where the link at a port leads: the other atom, and its port."""
        return self.links[port].other_end(End(self, port))

    def neighbours(self) -> list[Atom]:
        """The atoms to which its links lead, port by port."""
        return [self.neighbour(port).atom for port in range(len(self.links))]


class Membrane:
    """A membrane, or the root: its number, the membrane in which it lies, the atoms and membranes in it, and its rules."""

    __slots__ = ('number', 'parent', 'atoms', 'membranes', 'rules')

    def __init__(self, number: int, parent: Membrane | None) -> None:
        self.number, self.parent = number, parent
        self.atoms: list[Atom] = []
        self.membranes: list[Membrane] = []
        self.rules: list[Rule] = []

    def __repr__(self) -> str:
        return f'<membrane {self.number}: {len(self.atoms)} atoms, {len(self.membranes)} membranes, {len(self.rules)} rules>'

    @property
    def is_root(self) -> bool:
        """Whether it lies in none."""
        return self.parent is None

    def below(self) -> Iterator[Membrane]:
        """The membrane and all in it, an outer one before an inner one."""
        todo = [self]
        while todo:
            membrane = todo.pop()
            yield membrane
            todo += reversed(membrane.membranes)


class Graph:
    """What a printed line stands for: all atoms, membranes and links."""

    def __init__(self, process: lines.Process) -> None:
        self.atoms: list[Atom] = []
        self.membranes: list[Membrane] = []
        self.links: dict[int, Link] = {}
        self.is_folded = process.is_folded
        self.reader = Reader(1 + max((link for item in process.items for link in item.links), default=-1))
        for each in process.membranes:
            self.add(each)
        for atom in self.atoms:
            for port, link in enumerate(atom.links):
                link.ends += (End(atom, port),)
        if any(len(link.ends) != 2 for link in self.links.values()):
            raise lines.Unreadable('a link has not two ends')

    def add(self, read: lines.Membrane) -> None:
        """Adds a membrane and its atoms."""
        membrane = Membrane(len(self.membranes), None if read.parent is None else self.membranes[read.parent])
        if membrane.parent is not None:
            membrane.parent.membranes.append(membrane)
        self.membranes.append(membrane)
        membrane.rules = [Rule(text) for text in read.rules]
        for item in read.items:
            for name, numbers in self.spelled(item):
                links = tuple(self.links.setdefault(it, Link(it)) for it in numbers)
                membrane.atoms.append(Atom(len(self.atoms), Functor(name, len(links)), links, membrane))
                self.atoms.append(membrane.atoms[-1])

    def spelled(self, item: lines.Item) -> list[tuple[str, list[int]]]:
        """The atoms of an item: itself, or those of its terms."""
        if item.is_plain:
            return [(item.pieces[0][:-1] if item.links else item.pieces[0], item.links)]
        return list(self.reader.atoms(item.text([f'L{link}' for link in item.links])))


class Process:
    """A process that the program printed, in the plain form or in the folded one.

    `text` is the line, which is a program again. Two are equal where their lines are; `is_same_as` tells whether they are one.
    """

    def __init__(self, text: str) -> None:
        self.text = text.rstrip('\n')

    def __str__(self) -> str:
        return self.text

    def __repr__(self) -> str:
        shown = self.text if len(self.text) <= MOST_SHOWN else self.text[:MOST_SHOWN - 3] + '...'
        return f'Process({shown!r})'

    def __eq__(self, other: object) -> bool:
        return isinstance(other, Process) and self.text == other.text

    def __hash__(self) -> int:
        return hash(self.text)

    @cached_property
    def graph(self) -> Graph:
        """What the line stands for, read when it is asked for first."""
        try:
            return Graph(lines.read_process(self.text))
        except lines.Unreadable as why:
            raise ProgramFailed(f'the program printed a line that is none: {why}') from None

    @property
    def root(self) -> Membrane:
        """The root, in which all else lies."""
        return self.graph.membranes[0]

    @property
    def membranes(self) -> list[Membrane]:
        """The root and all membranes, an outer one before an inner one."""
        return self.graph.membranes

    @property
    def atoms(self) -> list[Atom]:
        """All atoms, membrane by membrane."""
        return self.graph.atoms

    @property
    def links(self) -> list[Link]:
        """All links, as they are met first."""
        return list(self.graph.links.values())

    @property
    def rules(self) -> list[Rule]:
        """The rules of the root; a membrane has its own."""
        return self.root.rules

    def functors(self) -> Counter[Functor]:
        """How many atoms there are of each functor, in all membranes."""
        return Counter(atom.functor for atom in self.atoms)

    def count(self, functor: str | Functor) -> int:
        """How many atoms have a functor, as `busy/0`, in all membranes."""
        return self.functors()[Functor.of(functor)]

    def find(self, functor: str | Functor) -> list[Atom]:
        """The atoms that have a functor, in all membranes."""
        wanted = Functor.of(functor)
        return [atom for atom in self.atoms if atom.functor == wanted]

    def is_same_as(self, other: Process) -> bool:
        """Whether they differ in nothing but the order of items and rules and the numbers of links; exact, by a test of isomorphism."""
        return is_same(self.plain(), other.plain())

    def folded(self) -> str:
        """The process as a person reads it: terms and lists written as such, without rules."""
        return folded_text(self.plain())

    def plain(self) -> str:
        """The line with each atom by itself; it is `text` where that isn't folded."""
        return plain_line(self) if self.graph.is_folded else self.text

    def to_networkx(self, membranes: bool = False) -> Any:
        """The process as a MultiGraph of networkx, which has to be installed; `networks.process_graph` tells its form."""
        from leskvund.networks import process_graph
        return process_graph(self, membranes)

    def to_svg(self) -> str:
        """A picture: atoms as boxes, links as lines with their ports, membranes as circles; rules are left out."""
        from leskvund.pictures import picture_of
        return picture_of(self)

    def _repr_svg_(self) -> str | None:
        try:
            return self.to_svg()
        except LeskvundError:
            return None


def plain_line(process: Process) -> str:
    """The line of a process in the plain form."""
    parts: dict[Membrane, list[str]] = {}
    for membrane in reversed(process.membranes):
        inner = ['{' + ', '.join(parts[it]) + '}' for it in membrane.membranes]
        parts[membrane] = [*map(repr, membrane.atoms), *inner, *(f'({rule.text})' for rule in membrane.rules)]
    return ' '.join(f'{part}.' for part in parts[process.root])
