"""Functors as the server reads them from a text, compared with those that the program has in the process and in its listing."""
from __future__ import annotations

import re
from pathlib import Path

import pytest
from conftest import EXAMPLES, refusals, texts_of_pages

from leskvund import Program
from leskvund.server.occurrences import BODY, HEAD, PROCESS, Occurrences

TAKEN = re.compile(r"(?:FINDATOM|DEREF|FIRSTATOM)\b.* (\S.*/\d+)$")
MADE = re.compile(r"NEWATOM \S+ \S+ (.*/\d+)$")


TEXTS = [path.read_text(encoding='utf-8') for path in EXAMPLES] + texts_of_pages() + [row[5].strip('`') for row in refusals()]


def functors(found: Occurrences, side: str) -> set[str]:
    return {f'{name}/{arity}' for name, arity in (it.key for it in found.all if it.kind == 'functor' and it.side == side)}


@pytest.mark.no_program
def test_the_pages_have_texts() -> None:
    assert len(texts_of_pages()) > 40


@pytest.mark.parametrize('text', TEXTS, ids=range(len(TEXTS)))
def test_functors_of_the_process(text: str) -> None:
    # A `{..}` that stands as a term makes a '+' that isn't written.
    process = {str(functor) for functor in Program(text).first.functors()}
    assert functors(Occurrences(text), PROCESS) | {"'+'/1", "'[]'/1"} == process | {"'+'/1", "'[]'/1"}


@pytest.mark.parametrize('path', EXAMPLES, ids=lambda path: path.stem)
def test_functors_of_rules(path: Path) -> None:
    text = path.read_text(encoding='utf-8')
    found, lines = Occurrences(text), [line for rule in Program(text).compile() for line in rule]
    taken, made = ({match.group(1) for line in lines if (match := pattern.match(line))} for pattern in (TAKEN, MADE))
    assert taken <= functors(found, HEAD) and made <= functors(found, BODY) | functors(found, HEAD)
    assert len([rule for rule in found.rules if rule.outer is None]) == len(Program(text).rules)
