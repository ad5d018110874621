"""Finds the program and calls it with texts."""
from __future__ import annotations

import os
import signal
import subprocess
import tempfile
from collections.abc import Sequence
from dataclasses import dataclass

from leskvund.errors import ProgramMissing, TimedOut, error_of
from leskvund.program import found

# Bytes that aren't UTF-8 may stand in texts, and come back as they were.
ENCODING, ERRORS = 'utf-8', 'surrogateescape'


def find_program() -> str:
    """The program: what the variable LMN names, else the one that was built in this repository, else `lmn` of PATH."""
    program: str | None = found()
    if program is None:
        raise ProgramMissing('no program: LMN names none, crates/lmn/out/lmn is not built (./lmn --build builds it), and no lmn is on PATH')
    return program


@dataclass(frozen=True)
class Said:
    """How the program ended, and what it printed."""

    status: int
    output: str
    words: str

    @property
    def last_words(self) -> str:
        """The last line of standard error."""
        return self.words.strip().rpartition('\n')[2]


def call(command: str, texts: Sequence[str], options: Sequence[str] = (), seconds: float | None = None) -> Said:
    """Calls the program with texts, each as a file, and with options."""
    program = find_program()
    with tempfile.TemporaryDirectory(prefix='leskvund') as folder:
        files = [written(folder, number, text) for number, text in enumerate(texts)]
        with started([program, command, *files, *options]) as run:
            try:
                output, words = run.communicate(timeout=seconds)
            except subprocess.TimeoutExpired:
                raise TimedOut(seconds or 0) from None
            finally:
                if run.poll() is None:
                    os.killpg(run.pid, signal.SIGKILL)
    return Said(run.returncode, output, words)


def started(words: Sequence[str]) -> subprocess.Popen[str]:
    """The running program, in a group of its own, so that all that it starts can be ended."""
    try:
        return subprocess.Popen(words, stdin=subprocess.DEVNULL, stdout=subprocess.PIPE, stderr=subprocess.PIPE, start_new_session=True,
                                encoding=ENCODING, errors=ERRORS)
    except OSError as why:
        raise ProgramMissing(f'{words[0]} is not to be run: {why.strerror}') from None


def written(folder: str, number: int, text: str) -> str:
    """The file into which a text is written, byte for byte."""
    name = os.path.join(folder, f'text{number}')
    with open(name, 'w', newline='', encoding=ENCODING, errors=ERRORS) as file:
        file.write(text)
    return name


def output_of(command: str, texts: Sequence[str], options: Sequence[str] = (), seconds: float | None = None) -> str:
    """What a command prints that ends with 0; else its exception."""
    said = call(command, texts, options, seconds)
    if said.status != 0:
        raise error_of(said.status, said.last_words)
    return said.output
