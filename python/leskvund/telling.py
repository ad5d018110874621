"""Tells a process as a person reads it: terms as terms, without rules."""
from __future__ import annotations

from typing import TYPE_CHECKING

from leskvund.patterns import Rules, is_integer
from leskvund.regions import Numbers, region_of_line

if TYPE_CHECKING:
    from leskvund.regions import Atom, Region


class Folded:
    """The atoms of a membrane written as terms: an atom whose last link leads to an argument of another one stands there."""

    def __init__(self, region: Region, numbers: Numbers) -> None:
        self.numbers, self.printed = numbers, set()
        # An integer reads better behind the name that it belongs to.
        atoms = sorted(region.atoms, key=lambda atom: is_integer(atom.functor))
        self.places = {atom: at for at, atom in enumerate(atoms)}
        firsts = [atom for atom in atoms if not self.is_child(atom)]
        self.texts = [self.text(atom) for atom in firsts + atoms if atom not in self.printed]

    def is_child(self, atom: Atom) -> bool:
        return bool(atom.ends) and self.is_child_of(atom, *atom.ends[-1])

    def is_child_of(self, atom: Atom, parent: Atom, port: int) -> bool:
        """Whether an atom may be written as the argument of another one."""
        if parent is atom or parent not in self.places:
            return False
        return port != len(parent.links) - 1 or self.places[parent] < self.places[atom]

    def text(self, atom: Atom) -> str:
        """The text of an atom as an item."""
        self.printed.add(atom)
        return with_arguments(atom, [self.argument(atom, port) for port in range(len(atom.links))])

    def argument(self, parent: Atom, port: int) -> str:
        """What stands in an argument: a term, or a link."""
        atom, entered = parent.ends[port]
        is_term = entered == len(atom.links) - 1 and atom in self.places and atom not in self.printed and self.is_child_of(atom, parent, port)
        return self.term(atom) if is_term else self.numbers.text(parent.links[port])

    def term(self, atom: Atom) -> str:
        """The text of an atom as a term, without its last argument."""
        self.printed.add(atom)
        if atom.functor == ("'.'", 3):
            return self.list_text(atom)
        if atom.functor == ("'[]'", 1):
            return '[]'
        return with_arguments(atom, [self.argument(atom, port) for port in range(len(atom.links) - 1)])

    def list_text(self, cell: Atom) -> str:
        """The text of a list from a cell on."""
        elements = [self.argument(cell, 0)]
        while True:
            rest, entered = cell.ends[1]
            is_term = rest in self.places and rest not in self.printed and entered == len(rest.links) - 1
            if is_term and rest.functor == ("'.'", 3):
                self.printed.add(rest)
                elements.append(self.argument(rest, 0))
                cell = rest
                continue
            last = self.argument(cell, 1)
            return f'[{", ".join(elements)}' + (']' if last == '[]' else f' | {last}]')


def with_arguments(atom: Atom, arguments: list[str]) -> str:
    return atom.functor[0] + (f'({", ".join(arguments)})' if arguments else '')


def folded_parts(region: Region, numbers: Numbers) -> list[str]:
    """The texts of the items of a membrane, terms written as terms, rules left out."""
    return Folded(region, numbers).texts + ['{' + ', '.join(folded_parts(inner, numbers)) + '}' for inner in region.inner]


def told(root: Region) -> str:
    """A process as a person reads it, in the folded form without rules."""
    return '. '.join(folded_parts(root, Numbers())) or '(nothing)'


def folded_text(line: str) -> str:
    """The process of a plain line as a person reads it."""
    return told(region_of_line(line, Rules(line)))
