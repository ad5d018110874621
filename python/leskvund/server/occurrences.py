"""Where names stand in a text, and whether in the process, or in the head, the guard or the body of a rule."""
from __future__ import annotations

from collections.abc import Iterator
from dataclasses import dataclass, field
from functools import cached_property

from leskvund.server.tokens import Token, tokens_of

PROCESS, HEAD, GUARD, BODY = 'process', 'head', 'guard', 'body'
CLOSING = {')': ('arguments', 'group', 'condition'), ']': ('list', 'form'), '}': ('membrane',)}
MOST_LETTERS = 40


@dataclass(eq=False)
class Clause:
    """A rule, or items up to a full stop; in the membrane or the parentheses of an outer one, or at the top."""

    outer: Clause | None
    start: int
    end: int = 0
    turnstile: Token | None = None
    bar: Token | None = None
    label: Token | None = None

    @property
    def is_rule(self) -> bool:
        """Whether it has a `:-`."""
        return self.turnstile is not None

    def side(self, at: int) -> str:
        """The part of it in which a place lies, or of the rule round it."""
        if self.turnstile is None:
            return PROCESS if self.outer is None else self.outer.side(self.start)
        if at < self.turnstile.start:
            return HEAD
        return GUARD if self.bar is not None and at < self.bar.start else BODY

    def rule(self) -> Clause | None:
        """The innermost rule that it is or lies in."""
        clause: Clause | None = self
        while clause is not None and not clause.is_rule:
            clause = clause.outer
        return clause


@dataclass(frozen=True, eq=False)
class Occurrence:
    """A place at which a name stands: `kind` says whether as a functor, a link, a context, a rule context or the name of a rule.

    Two occurrences are of one thing where they have one `key`, and, but for functors, one scope. `in_term` says whether it stands
    where a link may, as an argument.
    """

    kind: str
    key: tuple[str, int]
    token: Token
    clause: Clause
    in_term: bool = False

    @property
    def side(self) -> str:
        """In which part of its rule it stands, or in the process."""
        return self.clause.side(self.token.start)

    @property
    def scope(self) -> Clause | None:
        """The rule whose links and contexts are its own; None for a link of the process, and for a functor."""
        return None if self.kind == 'functor' else self.clause.rule()

    def is_of(self, other: Occurrence) -> bool:
        """Whether both are of one thing."""
        return self.kind == other.kind and self.key == other.key and self.scope is other.scope


@dataclass(eq=False)
class Frame:
    """A bracket that isn't closed yet: of arguments with their atom, of a list, a membrane, items, a condition or a form of a context."""

    kind: str
    clause: Clause
    atom: Token | None = None
    is_term: bool = False
    commas: int = 0
    is_empty: bool = True


@dataclass(eq=False)
class Reader:
    """Reads the tokens once, from left to right, with the brackets that are open."""

    tokens: list[Token]
    clauses: list[Clause] = field(default_factory=list)
    occurrences: list[Occurrence] = field(default_factory=list)
    frames: list[Frame] = field(default_factory=list)

    def read(self) -> None:
        """Reads all."""
        self.frames.append(Frame('top', self.begin(None, 0)))
        for at in range(len(self.tokens)):
            self.take(at)
        while self.frames:
            self.end_clause(self.frames.pop())

    def begin(self, outer: Clause | None, at: int) -> Clause:
        """Begins a clause with the token at a place."""
        clause = Clause(outer, self.tokens[at].start if at < len(self.tokens) else 0)
        clause.end = clause.start
        self.clauses.append(clause)
        return clause

    def end_clause(self, frame: Frame) -> None:
        """Leaves out a clause that has nothing, which is the last one."""
        if frame.kind in ('top', 'membrane', 'group') and frame.clause.end == frame.clause.start:
            self.clauses.pop()

    def text(self, at: int) -> str:
        """The text of the token at a place; nothing where there is none."""
        return self.tokens[at].text if 0 <= at < len(self.tokens) else ''

    @property
    def frame(self) -> Frame:
        return self.frames[-1]

    @property
    def clause(self) -> Clause:
        return self.frames[-1].clause

    def in_guard(self) -> bool:
        """Whether what comes is of a guard."""
        clause = self.clause
        return clause.bar is not None and self.frame.kind in ('top', 'membrane', 'group', 'condition', 'form') and self.position < clause.bar.start

    def take(self, at: int) -> None:
        """Reads the token at a place."""
        token = self.tokens[at]
        self.position = token.start
        if token.text == '.':
            self.take_stop(at)
            return
        if token.text in CLOSING:
            self.take_closing(token, at)
            return
        self.clause.end = token.end
        self.frame.is_empty = False
        if token.text in ('(', '[', '{'):
            self.take_opening(token, at)
        elif token.text == ':-':
            self.take_turnstile(token, at)
        elif token.text == ',':
            self.frame.commas += 1
        elif token.is_name:
            self.take_name(token, at)
        elif token.kind in ('link', 'context', 'rules'):
            self.add(token.kind, (token.text, 0), token, self.is_term(at) or self.text(at + 1) == '=')
        elif token.text == '+' and self.tokens[at + 1:at + 2] and self.tokens[at + 1].kind == 'link' and not self.in_guard():
            self.add('functor', ("'+'", 1), token)

    def add(self, kind: str, key: tuple[str, int], token: Token, in_term: bool = False) -> None:
        self.occurrences.append(Occurrence(kind, key, token, self.clause, in_term))

    def take_name(self, token: Token, at: int) -> None:
        """Reads the name of a rule, of a condition or of an atom; arguments of an atom follow."""
        if self.text(at + 1) == '@@' and self.clause.start == token.start:
            self.clause.label = token
            self.add('rule', (token.name, 0), token)
        elif not self.in_guard() and self.text(at + 1) != '(':
            self.add_atom(token, 0, self.is_term(at) or self.text(at + 1) == '=')

    def is_term(self, at: int) -> bool:
        """Whether what begins at a place stands where a link may."""
        return self.frame.kind in ('arguments', 'list') or self.text(at - 1) == '='

    def add_atom(self, token: Token, arguments: int, is_term: bool) -> None:
        self.add('functor', (token.name, arguments + is_term), token)

    def take_opening(self, token: Token, at: int) -> None:
        """Opens a bracket."""
        before = self.tokens[at - 1] if at else None
        if token.text == '{':
            self.frames.append(Frame('membrane', self.begin(self.clause, at + 1)))
        elif self.in_guard():
            self.frames.append(Frame('condition', self.clause))
        elif token.text == '(' and before is not None and before.is_name:
            self.frames.append(Frame('arguments', self.clause, before, self.is_term(at - 1)))
        elif token.text == '(':
            self.frames.append(Frame('group', self.begin(self.clause, at + 1)))
        elif before is not None and before.kind == 'context':
            self.frames.append(Frame('form', self.clause))
        else:
            self.add('functor', ("'[]'", 1) if self.text(at + 1) == ']' else ("'.'", 3), token)
            self.frames.append(Frame('list', self.clause))

    def take_closing(self, token: Token, at: int) -> None:
        """Closes the last bracket of this kind that is open, and those in it."""
        if not any(frame.kind in CLOSING[token.text] for frame in self.frames):
            return
        while True:
            frame = self.frames.pop()
            self.end_clause(frame)
            if frame.kind in CLOSING[token.text]:
                break
        self.clause.end = token.end
        if frame.atom is not None:
            self.add_atom(frame.atom, 0 if frame.is_empty else frame.commas + 1, frame.is_term or self.text(at + 1) == '=')

    def take_stop(self, at: int) -> None:
        """Ends a clause; brackets in it that aren't closed end too."""
        while self.frame.kind not in ('top', 'membrane', 'group'):
            self.frames.pop()
        frame = self.frame
        self.end_clause(frame)
        frame.clause = self.begin(frame.clause.outer, at + 1)

    def take_turnstile(self, token: Token, at: int) -> None:
        """Makes the clause a rule, with a guard where a bar stands behind it outside of brackets."""
        clause = self.clause
        if clause.turnstile is None:
            clause.turnstile = token
            clause.bar = self.bar_behind(at + 1)

    def bar_behind(self, at: int) -> Token | None:
        """The first bar behind a place that stands outside of brackets, before the clause ends."""
        depth = 0
        for number in range(at, len(self.tokens)):
            token = self.tokens[number]
            depth += (token.text in ('(', '[', '{')) - (token.text in CLOSING)
            if depth < 0 or depth == 0 and token.text == '.':
                return None
            if depth == 0 and token.text == '|':
                return token
        return None


class Occurrences:
    """All clauses of a text and all that occurs in it."""

    def __init__(self, text: str) -> None:
        self.source = text
        self.tokens = tokens_of(text)
        reader = Reader(self.tokens)
        reader.read()
        self.clauses = sorted(reader.clauses, key=lambda clause: clause.start)
        self.all = sorted(reader.occurrences, key=lambda it: it.token.start)

    @cached_property
    def rules(self) -> list[Clause]:
        """The rules, in order."""
        return [clause for clause in self.clauses if clause.is_rule]

    def label(self, rule: Clause) -> str:
        """The name of a rule, or how it begins."""
        if rule.label is not None:
            return rule.label.name
        text = ' '.join(self.source[rule.start:rule.end].split())
        return text if len(text) <= MOST_LETTERS else text[:MOST_LETTERS - 3] + '...'

    def at(self, place: int) -> Occurrence | None:
        """What occurs at a place, or ends there."""
        touching = [it for it in self.all if it.token.start <= place <= it.token.end]
        return max(touching, key=lambda it: it.token.start) if touching else None

    def of(self, occurrence: Occurrence) -> list[Occurrence]:
        """All occurrences of one thing, in order."""
        return [it for it in self.all if it.is_of(occurrence)]

    def functors(self, name: str) -> Iterator[tuple[str, int]]:
        """The functors that have a name."""
        yield from sorted({it.key for it in self.all if it.kind == 'functor' and it.key[0] == name})

    def stop_behind(self, clause: Clause) -> int:
        """The place behind the full stop that ends a clause, or behind the clause where there is none."""
        behind = next((token for token in self.tokens if token.start >= clause.end), None)
        return behind.end if behind is not None and behind.text == '.' else clause.end

    def token_at(self, place: int) -> Token | None:
        """The token that begins at a place."""
        return next((token for token in self.tokens if token.start == place), None)
