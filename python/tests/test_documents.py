"""Changes of a text as an editor sends them, compared with a text of UTF-16 units whose lines are counted anew each time."""
from __future__ import annotations

import random

import pytest

from leskvund.server.documents import ENCODINGS, Document, place_of_bytes

LETTERS = ['a', 'é', '𝄞', '\n', '\r\n', '\r', 'b(', 'X', ' ', '漢', '.']
FEED, RETURN = b'\n\0', b'\r\0'


class Units:
    """A text as a list of code units."""

    def __init__(self, text: str) -> None:
        content = text.encode('utf-16-le')
        self.all = [content[at:at + 2] for at in range(0, len(content), 2)]

    def text(self) -> str:
        return b''.join(self.all).decode('utf-16-le')

    def is_end(self, at: int) -> bool:
        """Whether a line ends with the unit at a place."""
        return self.all[at] == FEED or self.all[at] == RETURN and self.all[at + 1:at + 2] != [FEED]

    def position(self, place: int) -> dict[str, int]:
        starts = [0, *(at + 1 for at in range(len(self.all)) if self.is_end(at))]
        line = max(number for number, start in enumerate(starts) if start <= place)
        return {'line': line, 'character': place - starts[line]}

    def places(self) -> list[int]:
        """The places between letters, but for those in the end of a line."""
        places, at = [0], 0
        for letter in self.text():
            at += len(Units(letter).all)
            places.append(at)
        return [place for place in places if self.all[place - 1:place + 1] != [RETURN, FEED]]


def some(chance: random.Random, most: int) -> str:
    return ''.join(chance.choice(LETTERS) for _ in range(chance.randint(0, most)))


@pytest.mark.no_program
def test_changes_come_to_the_text_that_the_editor_has() -> None:
    chance = random.Random(7)
    for _ in range(100):
        document = Document('file:///it', 0, some(chance, 30))
        units = Units(document.text)
        for version in range(20):
            start, end = sorted(chance.choice(units.places()) for _ in range(2))
            new = some(chance, 4)
            document = document.changed(version, [{'range': {'start': units.position(start), 'end': units.position(end)}, 'text': new}])
            units.all[start:end] = Units(new).all
            assert document.text == units.text()


@pytest.mark.no_program
@pytest.mark.parametrize('encoding', ENCODINGS)
def test_positions_lead_back_to_their_places(encoding: str) -> None:
    chance = random.Random(3)
    for _ in range(200):
        text = some(chance, 30)
        document = Document('file:///it', 0, text, encoding)
        for place in range(len(text) + 1):
            if text[place - 1:place + 1] != '\r\n' or place == 0:
                assert document.place(document.position(place)) == place


@pytest.mark.no_program
@pytest.mark.parametrize('line, column, place', [(1, 1, 0), (1, 4, 2), (2, 1, 4), (2, 3, 6), (3, 1, 7), (9, 9, 7)])
def test_places_that_the_program_tells_are_bytes(line: int, column: int, place: int) -> None:
    assert place_of_bytes('aé\r\nbc\n', line, column) == place
