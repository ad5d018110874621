"""What can go wrong: each status of the program that says that nothing was done is an exception with a name of its own."""
from __future__ import annotations


class LeskvundError(Exception):
    """Of all that this package raises. `status` is that of the program, or None where it wasn't run to its end."""

    status: int | None = None


class ProgramMissing(LeskvundError):
    """There is no program to run, or it isn't one."""

    status = 70


class ProgramFailed(LeskvundError):
    """The program ended as none of its statuses says, or printed what can't be read."""

    def __init__(self, words: str, status: int | None = None) -> None:
        super().__init__(words)
        self.status = status


class NoWeights(LeskvundError):
    """No weights of atoms lower each rule; the words tell which rules, fired so often, make all that they take."""


class TimedOut(LeskvundError):
    """The program was ended, since it took longer than it was given."""

    def __init__(self, seconds: float) -> None:
        super().__init__(f'the program was ended after {seconds:g} seconds')
        self.seconds = seconds


class Refused(LeskvundError):
    """A text is refused.

    `code` is the code of docs/refusals.md or docs/commands.md, as `E22`, and `words` says what it means. `line` and `column` are
    counted from 1, the column in bytes. This class itself is raised for the text of the program.
    """

    status = 2

    def __init__(self, code: str, line: int, column: int, words: str) -> None:
        super().__init__(f'{code} {line}:{column} {words}')
        self.code, self.line, self.column, self.words = code, line, column, words

    def __reduce__(self) -> tuple[type[Refused], tuple[str, int, int, str]]:
        return type(self), (self.code, self.line, self.column, self.words)


class WordsRefused(LeskvundError):
    """The program doesn't understand the words with which it is called: it isn't the one of this package."""

    status = 3


class ReadFailed(LeskvundError):
    """The program couldn't read a text."""

    status = 4


class WriteFailed(LeskvundError):
    """The program couldn't write what it had to say."""

    status = 5


class OutOfMemory(LeskvundError):
    """The program had not memory enough to begin, or to print what it made."""

    status = 6


class TraceRefused(Refused):
    """The lines are no trace of the program."""

    status = 8


class ScriptRefused(Refused):
    """A line of a script is no command."""

    status = 9


class ListingRefused(Refused):
    """The listing isn't code of the rules of the program, or would be run wrongly."""

    status = 10


class WeightsRefused(Refused):
    """The weights aren't of the form, or a rule isn't lowered by them; then the place is that of the rule."""

    status = 11


REFUSALS: dict[int | None, type[Refused]] = {each.status: each for each in (Refused, TraceRefused, ScriptRefused, ListingRefused, WeightsRefused)}
FAILURES: dict[int | None, type[LeskvundError]] = {each.status: each for each in (WordsRefused, ReadFailed, WriteFailed, OutOfMemory, ProgramMissing)}


def error_of(status: int, said: str) -> LeskvundError:
    """The exception for a status with which nothing was done, and the last line of standard error."""
    parts = said.split(' ', 2)
    if status in REFUSALS and len(parts) == 3:
        line, _, column = parts[1].partition(':')
        if line.isdigit() and column.isdigit():
            return REFUSALS[status](parts[0], int(line), int(column), parts[2])
    if status in FAILURES:
        return FAILURES[status](said or f'the program ended with status {status}')
    return ProgramFailed(said or f'the program ended with status {status}', status)
