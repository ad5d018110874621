"""Reads an item of the folded form, and tells the atoms for which its terms and lists stand."""
from __future__ import annotations

import re
from collections.abc import Iterator

from leskvund.lines import Unreadable

WORD = re.compile(r"'(?:[^']|'')*'|L\d+|-?\d+|[a-z]\w*|[()\[\]]|, | \| ", re.ASCII)
CELL, NIL = "'.'", "'[]'"
# An atom: its name as it is printed, and the numbers of its links.
Spelled = tuple[str, list[int]]


class Open:
    """An item, a term or a list whose bracket isn't closed yet: its name, None for a list, and the links of its arguments."""

    def __init__(self, name: str | None) -> None:
        self.name, self.has_rest = name, False
        self.links: list[int] = []


class Reader:
    """Reads items one after the other. Links that no item shows get numbers from `fresh` on."""

    def __init__(self, fresh: int) -> None:
        self.fresh = fresh

    def new_link(self) -> int:
        self.fresh += 1
        return self.fresh - 1

    def atoms(self, text: str) -> Iterator[Spelled]:
        """The atoms of an item, each before those in its arguments are closed."""
        words: list[str] = WORD.findall(text)
        stack: list[Open] = []
        if ''.join(words) != text:
            raise Unreadable(f'{text} is no item')
        for at, word in enumerate(words):
            yield from self.read(word, words[at + 1:at + 2] == ['('], stack)

    def read(self, word: str, is_open: bool, stack: list[Open]) -> Iterator[Spelled]:
        """Reads one word; the atoms that end with it."""
        if word in ('(', ', '):
            return
        if word == ' | ':
            stack[-1].has_rest = True
        elif word == '[':
            stack.append(Open(None))
        elif word in (')', ']'):
            yield from self.closed(stack.pop(), stack)
        elif word[0] == 'L':
            stack[-1].links.append(int(word[1:]))
        elif is_open:
            stack.append(Open(word))
        else:
            yield from self.closed(Open(word), stack)

    def closed(self, ended: Open, stack: list[Open]) -> Iterator[Spelled]:
        """The atoms of an item, a term or a list that ends here; what holds it gets its link."""
        if ended.name is None:
            link, atoms = self.cells(ended)
            yield from atoms
        elif stack:
            link = self.new_link()
            yield ended.name, [*ended.links, link]
        else:
            yield ended.name, ended.links
            return
        stack[-1].links.append(link)

    def cells(self, ended: Open) -> tuple[int, list[Spelled]]:
        """The link of a list, and its cells."""
        atoms: list[Spelled] = []
        elements = ended.links
        if ended.has_rest:
            elements, link = elements[:-1], elements[-1]
        else:
            link = self.new_link()
            atoms.append((NIL, [link]))
        for element in reversed(elements):
            rest, link = link, self.new_link()
            atoms.append((CELL, [element, rest, link]))
        return link, atoms
