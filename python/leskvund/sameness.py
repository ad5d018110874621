"""Tells whether two processes are one but for the order of items and the numbers of links: exactly, and not by a hash alone.

A process is taken apart into pieces. Two atoms are of one piece where a link joins them, and a membrane is of the piece of each
link that goes through its wall. So a piece stands in one membrane, a membrane through whose wall no link goes is a piece by
itself, and two processes are one where their roots have equal rules and equal pieces, each as often. Each piece gets the number
of its kind:

- A piece of atoms in one membrane is written down from each of its atoms that can be the first, by following ports; the least
  of these texts is its kind. It takes as many walks as there are atoms of the rarest functor.
- A membrane by itself has the kind of its rules and of the pieces in it.
- A piece with membranes and links through their walls is refined: an item knows its neighbours, a membrane what is in it, until
  no more items can be told apart. Where some still look alike one of them is marked and it goes on, so at the end there is a
  text. Equal texts are one piece. Pieces that refine alike and have other texts are compared by trying each mark, which takes
  long only for pieces that are regular and not alike; states of programs aren't.
"""
from __future__ import annotations

from collections.abc import Callable, Hashable
from typing import TYPE_CHECKING, Any

from collections import Counter

from leskvund.patterns import Rules
from leskvund.regions import region_of_line

if TYPE_CHECKING:
    from leskvund.labels import Labels
    from leskvund.regions import Atom, Region


class Pieces:
    """The pieces of a membrane through whose wall no link goes: for it, and for those in it through whose walls links go.

    Membranes that are closed are pieces by themselves, and aren't looked into.
    """

    def __init__(self, root: Region) -> None:
        self.chief, self.regions = {}, [root]
        depths = {root: 0}
        for region in self.regions:
            for inner in region.inner:
                depths[inner] = depths[region] + 1
                if inner.is_open:
                    self.regions.append(inner)
        for region in self.regions:
            for atom in region.atoms:
                for end in atom.ends:
                    self.unite_along(atom, end[0], depths)
        self.standing = {region: [] for region in self.regions}
        self.gather()

    def find(self, it: Any) -> Any:
        """The item that stands for the piece of an item."""
        chief = self.chief
        while it in chief:
            if chief[it] in chief:
                chief[it] = chief[chief[it]]
            it = chief[it]
        return it

    def unite_along(self, atom: Atom, other: Atom, depths: dict[Region, int]) -> None:
        """Makes two joined atoms one piece, with each membrane through whose wall the link goes."""
        here, there = atom.home, other.home
        items = [atom, other]
        while here is not there:
            if depths[here] >= depths[there]:
                items.append(here)
                here = here.parent
            else:
                items.append(there)
                there = there.parent
        first = self.find(atom)
        for item in items[1:]:
            chief = self.find(item)
            if chief is not first:
                self.chief[chief] = first

    def gather(self) -> None:
        """Gives each membrane its pieces. A piece stands in the membrane round its outermost items."""
        pieces = {}
        for region in self.regions:
            for item in (*region.atoms, *region.inner):
                chief = self.find(item)
                if chief not in pieces:
                    pieces[chief] = piece = []
                    self.standing[region].append(piece)
                pieces[chief].append(item)


def is_membrane(item: Any) -> bool:
    return not hasattr(item, 'functor')


def walk(first: Atom) -> tuple[tuple[str | int, ...], list[Atom]]:
    """What a piece of atoms is, written down from one of them by following ports; and its atoms as they are met."""
    numbers, order, text = {first: 0}, [first], []
    for atom in order:
        text.append(atom.form)
        for other, port in atom.ends:
            number = numbers.get(other)
            if number is None:
                number = numbers[other] = len(order)
                order.append(other)
            text += number, port
    return tuple(text), order


def rarest_first(atoms: list[Atom]) -> list[tuple[str, list[Atom]]]:
    """The atoms of each functor, the rarest functor first."""
    by_form = {}
    for atom in atoms:
        by_form.setdefault(atom.form, []).append(atom)
    return sorted(by_form.items(), key=lambda pair: (len(pair[1]), pair[0]))


class Graph:
    """A piece with membranes, its items by numbers."""

    def __init__(self, piece: list[Any], kind_of: Callable[[Any], int]) -> None:
        numbers = {item: number for number, item in enumerate(piece)}
        self.kinds = [kind_of(item) for item in piece]
        self.parents = [numbers.get(item.parent if is_membrane(item) else item.home) for item in piece]
        self.ends = [() if is_membrane(item) else tuple((numbers[other], port) for other, port in item.ends) for item in piece]
        self.inner = [[] for _ in piece]
        for number, parent in enumerate(self.parents):
            if parent is not None:
                self.inner[parent].append(number)

    def ranked(self, signs: list[Any]) -> tuple[list[int], int]:
        """Colours by the order of signs."""
        ranks = {sign: rank for rank, sign in enumerate(sorted(set(signs)))}
        return [ranks[sign] for sign in signs], len(ranks)

    def refined(self, colours: list[int]) -> tuple[list[int], tuple[Any, ...]]:
        """Colours that tell apart what neighbours tell apart, and the signs by which they were given last."""
        count = len(set(colours))
        while True:
            signs = [
                (
                    colours[at],
                    -1 if self.parents[at] is None else colours[self.parents[at]],
                    tuple((colours[other], port) for other, port in self.ends[at]),
                    tuple(sorted(colours[it] for it in self.inner[at])),
                )
                for at in range(len(colours))
            ]
            colours, now = self.ranked(signs)
            if now == count:
                return colours, tuple(sorted(signs))
            count = now

    def start(self) -> tuple[list[int], tuple[Any, ...]]:
        """The first colours, by kinds."""
        colours, signs = self.refined(self.ranked(self.kinds)[0])
        return colours, (tuple(sorted(self.kinds)), signs)

    def alike(self, colours: list[int]) -> list[int]:
        """The items of the first colour that several have, or none."""
        counts = Counter(colours)
        several = [colour for colour, count in counts.items() if count > 1]
        return [at for at, colour in enumerate(colours) if colour == min(several)] if several else []

    def marked(self, colours: list[int], at: int) -> tuple[list[int], tuple[Any, ...]]:
        """Colours in which one item is told apart from those that look like it."""
        return self.refined(self.ranked([(colour, number != at) for number, colour in enumerate(colours)])[0])

    def text(self, colours: list[int]) -> tuple[Any, ...]:
        """What the piece is, its items in the order of their colours, each of which one item has."""
        order = sorted(range(len(colours)), key=colours.__getitem__)
        return tuple(
            (self.kinds[at], -1 if self.parents[at] is None else colours[self.parents[at]], tuple((colours[it], port) for it, port in self.ends[at]))
            for at in order
        )

    def one_text(self) -> tuple[tuple[Any, ...], tuple[Any, ...]]:
        """A text of the piece, and what any equal piece comes by on the way: the signs after each mark."""
        colours, signs = self.start()
        way = [signs]
        alike = self.alike(colours)
        while alike:
            colours, signs = self.marked(colours, alike[0])
            way.append(signs)
            alike = self.alike(colours)
        return self.text(colours), tuple(way)

    def has_text(self, text: tuple[Any, ...], way: tuple[Any, ...]) -> bool:
        """Whether some order of marks leads to a text."""
        colours, signs = self.start()
        return signs == way[0] and self.leads(colours, text, way, 1)

    def leads(self, colours: list[int], text: tuple[Any, ...], way: tuple[Any, ...], depth: int) -> bool:
        alike = self.alike(colours)
        if not alike:
            return self.text(colours) == text
        for at in alike:
            next_colours, signs = self.marked(colours, at)
            if depth < len(way) and signs == way[depth] and self.leads(next_colours, text, way, depth + 1):
                return True
        return False


class Kinds:
    """Gives processes numbers: two have one number exactly where they are one."""

    def __init__(self, labels: Labels) -> None:
        self.labels, self.numbers, self.alike, self.closed, self.compared = labels, {}, {}, {}, 0

    def number(self, text: Hashable) -> int:
        """The number of a text."""
        return self.numbers.setdefault(text, len(self.numbers))

    def known(self, written: Hashable, kind: Callable[[], int]) -> int:
        """The kind of a piece that was met before, written down in just this way, or the one that is made out."""
        if written not in self.numbers:
            self.numbers[written] = kind()
        return self.numbers[written]

    def process(self, root: Region) -> int:
        """The number of a process, or of a membrane through whose wall no link goes."""
        layout = root.layout.number(self.labels)
        if layout not in self.closed:
            kinds = self.kinds_of_pieces(root) if any(inner.is_open for inner in root.inner) else self.kinds_in(root)
            self.closed[layout] = self.kind_of_membrane(root, kinds)
        return self.closed[layout]

    def kind_of_membrane(self, region: Region, kinds: list[int]) -> int:
        """The kind of a membrane by itself: its rules and the pieces in it."""
        return self.number(('membrane', tuple(sorted([rule.number for rule in region.rules])), tuple(sorted(kinds))))

    def kinds_in(self, region: Region) -> list[int]:
        """The kinds of what is in a membrane in which no link goes through a wall."""
        kinds, seen = [self.process(inner) for inner in region.inner], set()
        by_functor = rarest_first(region.atoms)
        for _, atoms in by_functor:
            for atom in atoms:
                if atom not in seen:
                    text, piece = walk(atom)
                    seen.update(piece)
                    kinds.append(self.kind_of_atoms(text, piece, atoms if len(piece) == len(region.atoms) else None))
        return kinds

    def kind_of_atoms(self, text: tuple[str | int, ...], piece: list[Atom], firsts: list[Atom] | None = None) -> int:
        """The kind of a piece of atoms that was written down from one of them: the least text from one of those of its rarest functor.

        `firsts` are these, where they are known.
        """
        if ('walk', text) not in self.numbers:
            firsts = firsts or rarest_first(piece)[0][1]
            least = text if firsts == piece[:1] else min(walk(atom)[0] for atom in firsts)
            self.numbers['walk', text] = self.number(('atoms', least))
        return self.numbers['walk', text]

    def kinds_of_pieces(self, root: Region) -> list[int]:
        """The kinds of what is in a membrane where links go through walls in it."""
        pieces, inside = Pieces(root), {}

        def kind_of(item: Any) -> int:
            """The kind of an item by itself."""
            if not is_membrane(item):
                return self.number(('functor', item.functor))
            return inside[item] if item.is_open else self.process(item)

        for region in reversed(pieces.regions):
            kinds = [self.kind_of_piece(piece, kind_of) for piece in pieces.standing[region]]
            inside[region] = self.kind_of_membrane(region, kinds)
        return kinds

    def kind_of_piece(self, piece: list[Any], kind_of: Callable[[Any], int]) -> int:
        if not any(map(is_membrane, piece)):
            return self.kind_of_atoms(walk(piece[0])[0], piece)
        if len(piece) == 1:
            return kind_of(piece[0])
        graph = Graph(piece, kind_of)
        return self.known(('as it stands', tuple(graph.kinds), tuple(graph.parents), tuple(graph.ends)), lambda: self.kind_of_graph(graph))

    def kind_of_graph(self, graph: Graph) -> int:
        """The number of a piece with membranes."""
        text, way = graph.one_text()
        if ('graph', text) in self.numbers:
            return self.numbers['graph', text]
        for other, other_way, number in self.alike.setdefault(way[0], []):
            self.compared += 1
            if graph.has_text(other, other_way):
                self.numbers['graph', text] = number
                return number
        number = self.number(('graph', text))
        self.alike[way[0]].append((text, way, number))
        return number


def is_same(line: str, other: str) -> bool:
    """Whether two plain lines are one process: they differ in the order of items, the numbers of links and the order of rules alone."""
    rules = Rules(line + other)
    kinds = Kinds(rules.labels)
    return kinds.process(region_of_line(line, rules)) == kinds.process(region_of_line(other, rules))
