"""Cuts a text into its clauses, and puts it together again. It reads no more of the grammar than that asks for."""
from __future__ import annotations

import os
import re
from collections.abc import Iterator, Sequence

TOKEN = re.compile(r"""\s+|%[^\n]*|//[^\n]*|/\*.*?\*/|'(?:[^']|'')*'|:-|@@|\d+|[A-Za-z_]\w*|.""", re.S)
NAMED = re.compile(r"\s*([a-z]\w*|'(?:[^']|'')*')\s*@@")


def tokens_of(text: str) -> Iterator[str]:
    """The tokens of a text, each comment and each run of white space as one blank."""
    for found in TOKEN.finditer(text):
        word = found.group()
        yield ' ' if word.isspace() or word[0] == '%' or word.startswith(('//', '/*')) else word


def cut(text: str, marks: set[str]) -> list[str]:
    """The parts of a text between marks that stand outside of brackets."""
    parts, part, depth = [], [], 0
    for word in tokens_of(text):
        depth += (word in '([{') - (word in ')]}') if len(word) == 1 else 0
        if depth == 0 and word in marks:
            parts.append(''.join(part).strip())
            part = []
        else:
            part.append(word)
    return [each for each in [*parts, ''.join(part).strip()] if each]


def is_rule(clause: str) -> bool:
    """Whether a clause is a rule that isn't in parentheses."""
    return ':-' in cut_words(clause)


def cut_words(clause: str) -> list[str]:
    """The tokens of a clause that stand outside of brackets."""
    depth, words = 0, []
    for word in tokens_of(clause):
        depth += (word in '([{') - (word in ')]}') if len(word) == 1 else 0
        if depth == 0:
            words.append(word)
    return words


def clauses_of(text: str) -> list[str]:
    """The rules of a text, or of a membrane, and its items, each by itself, in order."""
    found = []
    for clause in cut(text, {'.'}):
        found += [clause] if is_rule(clause) else cut(clause, {','})
    return found


def rules_at_top(text: str) -> list[tuple[str | None, str]]:
    """The rules at the top of a text, in order: of each the name, None where it has none, and how it is written."""
    rules = [clause for clause in clauses_of(text) if is_rule(clause) or clause.startswith('(')]
    found = [(NAMED.match(rule.strip('( ')), rule) for rule in rules]
    return [(match and match.group(1), ' '.join(rule.split())) for match, rule in found]


def rules_of(words: Sequence[str]) -> list[tuple[str | None, str]]:
    """The rules at the top of the text that is run, where it can be read."""
    files = [word for word in words if os.path.isfile(word)]
    if not files:
        return []
    with open(files[0], encoding='utf-8', errors='replace') as file:
        return rules_at_top(file.read())


def names_at_top(words: Sequence[str]) -> list[str | None]:
    """The names of the rules at the top of the text that is run, None for one without a name."""
    return [name for name, _ in rules_of(words)]
