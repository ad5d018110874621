"""A text that an editor has open, and its places: as the editor counts them, as the program does, and in letters."""
from __future__ import annotations

import bisect
import re
import threading
from functools import cached_property
from typing import Any

from leskvund.server.occurrences import Occurrences

LINE_END = re.compile(r'\r\n|\n|\r')
# How many bytes of a code unit stand for a letter, by the encodings of positions.
ENCODINGS = {'utf-8': ('utf-8', 1), 'utf-16': ('utf-16-le', 2), 'utf-32': ('utf-32-le', 4)}


def place_of_bytes(text: str, line: int, column: int) -> int:
    """The place of a line and a column that the program tells: lines end with a line feed, columns are bytes, both from 1."""
    lines = text.split('\n')
    if line > len(lines):
        return len(text)
    before = lines[line - 1].encode('utf-8', 'surrogatepass')[:column - 1].decode('utf-8', 'ignore')
    return sum(len(each) + 1 for each in lines[:line - 1]) + len(before)


class Document:
    """A text at a version. Lines end as the protocol says, and a place in a line is counted in units of an encoding."""

    def __init__(self, uri: str, version: int | None, text: str, encoding: str = 'utf-16') -> None:
        self.uri, self.version, self.text, self.encoding = uri, version, text, encoding
        self.lock = threading.Lock()
        self.known: Occurrences | None = None

    @cached_property
    def starts(self) -> list[int]:
        """Where each line begins."""
        return [0, *(found.end() for found in LINE_END.finditer(self.text))]

    @property
    def occurrences(self) -> Occurrences:
        """What occurs in the text, read once, whichever thread asks."""
        with self.lock:
            if self.known is None:
                self.known = Occurrences(self.text)
            return self.known

    def line(self, number: int) -> str:
        """A line without its end."""
        end = self.starts[number + 1] if number + 1 < len(self.starts) else len(self.text)
        return self.text[self.starts[number]:end].rstrip('\r\n')

    def units(self, text: str) -> int:
        """How many code units a text has."""
        name, size = ENCODINGS[self.encoding]
        return len(text.encode(name, 'surrogatepass')) // size

    def position(self, place: int) -> dict[str, int]:
        """A place as the editor counts it."""
        number = bisect.bisect_right(self.starts, place) - 1
        return {'line': number, 'character': self.units(self.text[self.starts[number]:place])}

    def range(self, start: int, end: int) -> dict[str, Any]:
        """A part of the text as the editor has it."""
        return {'start': self.position(start), 'end': self.position(end)}

    def place(self, position: dict[str, int]) -> int:
        """The place of an editor's position; one behind a line's end is that end."""
        number = position['line']
        if number >= len(self.starts):
            return len(self.text)
        line = self.line(number)
        name, size = ENCODINGS[self.encoding]
        before = line.encode(name, 'surrogatepass')[:position['character'] * size]
        return self.starts[number] + len(before.decode(name, 'ignore' if self.encoding == 'utf-8' else 'surrogatepass'))

    def changed(self, version: int | None, changes: list[dict[str, Any]]) -> Document:
        """The text after changes, one after the other: each of a part, or of all of it."""
        document = self
        for change in changes:
            text = change['text']
            if 'range' in change:
                start, end = (document.place(change['range'][side]) for side in ('start', 'end'))
                text = document.text[:start] + text + document.text[end:]
            document = Document(self.uri, version, text, self.encoding)
        return document
