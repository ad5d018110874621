"""What an editor is to mark: where a text is refused, and what is accepted and hardly meant."""
from __future__ import annotations

import re
from dataclasses import dataclass
from typing import Any

from leskvund import advice
from leskvund.calling import Said, call
from leskvund.errors import Refused, error_of
from leskvund.server.documents import Document, place_of_bytes
from leskvund.server.occurrences import HEAD, Clause
from leskvund.texts import clauses_of

# The program only loads a text, which takes longer for none but one that no person types.
MOST_SECONDS = 10
# How many rules that are refused are marked at once.
MOST_REFUSALS = 10
ERROR, WARNING = 1, 2
LINK_CODES = ('E20', 'E21', 'E22', 'E23')


@dataclass(frozen=True)
class Cure:
    """The row of docs/refusals.md of a code: what is wrong, and what stands instead, with an example of each where there is one."""

    wrong: str
    instead: str
    refused: str
    accepted: str

    @classmethod
    def of(cls, code: str) -> Cure | None:
        """The cure of a code, or None where the page isn't there or has none."""
        cells = advice.row_of(code)
        return None if cells is None else cls(cells[2], cells[6], cells[3], cells[5])

    def words(self) -> str:
        """The cure in one line."""
        return re.sub(r'\[`?([^\]`]*)`?\]\([^)]*\)', r'\1', self.instead)


@dataclass(frozen=True)
class Fault:
    """A part of a text that is to be marked. `code` is None for a warning; `related` are other places with their words."""

    start: int
    end: int
    words: str
    code: str | None = None
    related: tuple[tuple[int, int, str], ...] = ()

    def diagnostic(self, document: Document) -> dict[str, Any]:
        """The fault as an editor has it."""
        marked: dict[str, Any] = {
            'range': document.range(self.start, self.end), 'severity': WARNING if self.code is None else ERROR, 'source': 'lmn', 'message': self.words,
        }
        if self.code is not None:
            marked['code'] = self.code
        if self.related:
            marked['relatedInformation'] = [
                {'location': {'uri': document.uri, 'range': document.range(start, end)}, 'message': words} for start, end, words in self.related
            ]
        return marked


def loaded(text: str) -> Said:
    """What the program says of a text that it loads and doesn't run: no rule may fire."""
    return call('run', [text.encode('utf-8', 'surrogatepass').decode('utf-8', 'surrogateescape')], ['--budget', '0'], MOST_SECONDS)


def faults_of(document: Document) -> list[Fault]:
    """All that is to be marked; LeskvundError where the program can't say.

    The program refuses a text at one place. Where that is in a rule, which is no part of the others, it is asked again without it.
    """
    faults: list[Fault] = []
    text = document.text
    for _ in range(MOST_REFUSALS):
        said = loaded(text)
        if said.status in (0, 1, 7):
            unmade = [] if faults else unmade_faults(document, said.output.partition('\n')[0])
            return faults + unmade + habit_faults(document)
        error = error_of(said.status, said.last_words)
        if not isinstance(error, Refused):
            raise error
        place = place_of_bytes(text, error.line, error.column)
        faults.append(refusal(document, place, error))
        rule = rule_at(document, place)
        if rule is None or not text[slice(*rule)].strip():
            break
        text = without(text, *rule)
    return faults + habit_faults(document)


def rule_at(document: Document, place: int) -> tuple[int, int] | None:
    """Where the rule at the top begins in which a place lies, and the place behind its full stop."""
    rules = [rule for rule in document.occurrences.rules if rule.outer is None and rule.start <= place]
    end = document.occurrences.stop_behind(rules[-1]) if rules else 0
    return (rules[-1].start, end) if place < end else None


def without(text: str, start: int, end: int) -> str:
    """A text with blanks for the letters of a part, so that all else stays where it is."""
    return text[:start] + re.sub(r'[^\r\n]', ' ', text[start:end]) + text[end:]


def refusal(document: Document, place: int, error: Refused) -> Fault:
    """A refusal at a place, with its cure."""
    token = document.occurrences.token_at(place)
    cure = Cure.of(error.code)
    words = error.words if cure is None else f'{error.words}\ninstead: {cure.words()}'
    start, end = (place, token.end) if token is not None else visible(document.text, place)
    return Fault(start, end, words, error.code, other_ends(document, place) if error.code in LINK_CODES else ())


def visible(text: str, place: int) -> tuple[int, int]:
    """A letter at a place; at the end of a line or of the text the one before."""
    if place < len(text) and text[place] not in '\r\n':
        return place, place + 1
    return max(0, place - 1), place


def other_ends(document: Document, place: int) -> tuple[tuple[int, int, str], ...]:
    """The other places of the link that stands at a place."""
    link = document.occurrences.at(place)
    if link is None or link.kind != 'link':
        return ()
    return tuple((it.token.start, it.token.end, f'{it.token.text} stands here too') for it in document.occurrences.of(link) if it is not link)


def unmade_faults(document: Document, line: str) -> list[Fault]:
    """Warnings of functors that a head asks for and nothing makes, each at its places in heads."""
    hints = unmade_functors(line)
    return [Fault(it.token.start, it.token.end, f'nothing makes {it.key[0]}/{it.key[1]}, so this rule never fires{hints[it.key]}')
            for it in document.occurrences.all if it.kind == 'functor' and it.key in hints and it.side == HEAD]


def unmade_functors(line: str) -> dict[tuple[str, int], str]:
    """The functors of heads that nothing makes, in the process of a line, with what may be meant."""
    return {functor: hint.replace('\n ', ';') for _, functor, hint in advice.unmade_functors(line)}


def habit_faults(document: Document) -> list[Fault]:
    """Warnings of what those who come from Prolog write, and what it means here."""
    faults = []
    for clause in document.occurrences.clauses:
        if clause.outer is None:
            source = document.text[clause.start:clause.end]
            faults += [Fault(*narrowed(document, clause, words), words) for part in clauses_of(source) for words in advice.habits_of(part)]
    return faults


def narrowed(document: Document, clause: Clause, words: str) -> tuple[int, int]:
    """The part of a clause of which a warning speaks: the item with which it begins, or the last `_`, or all of it."""
    begin, tokens = words.partition(' is ')[0], [it for it in document.occurrences.tokens if clause.start <= it.start < clause.end]
    if words.startswith('the two _'):
        last = [it for it in tokens if it.text == '_'][-1]
        return last.start, last.end
    pattern = r'\s*'.join(map(re.escape, begin.split()))
    found = re.search(pattern, document.text[clause.start:clause.end])
    return (clause.start + found.start(), clause.start + found.end()) if found else (clause.start, clause.end)
