"""Has the program make foretold firings, many in one run, while the search goes on.

A batch of questions is worked off by a process of its own: it writes down what is asked and what is foretold, runs the program, and
compares. So nothing of it keeps the search waiting.
"""
from __future__ import annotations

import gc
import os
import signal
import subprocess
from typing import TYPE_CHECKING, NoReturn

from leskvund.program import Unshowable, program

if TYPE_CHECKING:
    from leskvund.asking import Question

MOST_LETTERS = 1 << 19
MOST_AT_ONCE = 3
MOST_SIZE = '4294967295'
NAMES: list[str] = []


class Batch:
    """Questions in one text, and what the program is to print of it."""

    def __init__(self) -> None:
        self.questions: list[Question] = []
        self.letters, self.firings = 0, 0

    def add(self, question: Question) -> None:
        self.questions.append(question)
        self.letters += question.letters()
        self.firings += question.firing is not None

    def asked(self) -> list[str]:
        """The copies, as they stand in the text."""
        return [question.asked().replace(question.family.labels.mark, f'L{number}_') for number, question in enumerate(self.questions)]

    def wanted(self) -> list[str]:
        """What is to be printed of each copy."""
        wanted, links = [], 0
        for question in self.questions:
            text, links = numbered(*question.wanted(), links)
            wanted.append(text)
        return wanted

    def fault(self, file: str) -> str:
        """Runs the program on a file with the questions. Why it didn't print what was foretold; empty where it did."""
        for question in self.questions:
            question.put_fences()
        asked = self.asked()
        with open(file, 'w', encoding='utf-8') as text:
            text.write('.\n'.join(asked) + '.\n')
        command = [program(), 'run', file, '--budget', str(self.firings + 1), '--size', MOST_SIZE]
        try:
            run = subprocess.Popen(command, stdout=subprocess.PIPE, stderr=subprocess.STDOUT)
        except OSError as why:
            return f'{program()} is not to be run: {why.strerror}'
        with run:
            wanted = self.wanted()
            lines = run.stdout.read().decode('utf-8', errors='surrogateescape').split('\n')
        os.remove(file)
        if lines[1:] == [f'% irreducible after {self.firings}', ''] and lines[0] == ' '.join([f'{it}.' for it in wanted]):
            return ''
        return difference(asked, wanted, self.firings, lines)


def numbered(form: str, links: list[int], base: int) -> tuple[str, int]:
    """A form with its links numbered from a number on as they come, and the next number."""
    first = dict.fromkeys(links)
    end = base + len(first)
    while len(NAMES) < end:
        NAMES.append(f'L{len(NAMES)}')
    names = dict(zip(first, NAMES[base:end]))
    return form % tuple(map(names.__getitem__, links)), end


def difference(asked: list[str], wanted: list[str], firings: int, lines: list[str]) -> str:
    """In what a run differs from what was foretold."""
    if len(lines) < 2:
        return f'the program refuses the copies of processes: {lines[0]}'
    got = lines[0].split('}. {')
    for at, (copy, foretold) in enumerate(zip(asked, wanted)):
        if at >= len(got) or foretold.strip('{}') != got[at].rstrip('.').strip('{}'):
            return f'the program makes of\n{copy}\nanother process than was foretold:\n{got[at] if at < len(got) else ""}\n{foretold}'
    return f'{firings} firings were foretold, and the program made another number: {lines[1]}'


class Run:
    """A batch that is worked off by a process of its own, in a group of its own, which writes into a pipe what is wrong."""

    def __init__(self, batch: Batch, file: str) -> None:
        self.batch = batch
        self.pipe, end = os.pipe()
        try:
            self.number = os.fork()
        except OSError as why:
            raise Unshowable(f'no process can be started: {why.strerror}', 70) from None
        if self.number == 0:
            work_off(batch, file, end)
        os.close(end)
        # The other process has them.
        batch.questions = []

    def fault(self) -> str:
        """Waits for the end. What is wrong; empty where nothing is."""
        with open(self.pipe, 'rb') as said:
            fault = said.read().decode('utf-8', errors='surrogateescape')
        _, status = os.waitpid(self.number, 0)
        return fault or ('' if status == 0 else 'the process that runs the program was ended')

    def stop(self) -> None:
        """Ends it, and the program that it runs."""
        try:
            os.killpg(self.number, signal.SIGKILL)
        except ProcessLookupError:
            # It has no group of its own yet.
            os.kill(self.number, signal.SIGKILL)
        os.close(self.pipe)
        os.waitpid(self.number, 0)


def work_off(batch: Batch, file: str, end: int) -> NoReturn:
    """What the process of a batch does."""
    status = 1
    try:
        os.setsid()
        gc.disable()
        fault = batch.fault(file)
        with open(end, 'wb') as pipe:
            pipe.write(fault.encode('utf-8', errors='surrogateescape'))
        status = 0
    finally:
        os._exit(status)


class Certifier:
    """Runs the program on batches, a few at once, and tells where it doesn't print what was foretold."""

    def __init__(self, folder: str) -> None:
        self.folder, self.batch = folder, Batch()
        self.running: list[Run] = []
        self.firings, self.questions, self.calls = 0, 0, 0

    def ask(self, question: Question) -> None:
        """Adds a question; a full batch is run."""
        self.batch.add(question)
        if self.batch.letters >= MOST_LETTERS:
            self.flush()

    def flush(self) -> None:
        """Runs what is asked so far."""
        if not self.batch.questions:
            return
        while len(self.running) >= MOST_AT_ONCE:
            self.wait()
        batch, self.batch = self.batch, Batch()
        self.questions += len(batch.questions)
        self.running.append(Run(batch, os.path.join(self.folder, f'{self.calls}.lmn')))
        self.calls += 1

    def finish(self) -> None:
        """Runs the rest, and waits for all."""
        self.flush()
        while self.running:
            self.wait()

    def wait(self) -> None:
        """Waits for the first run. The program must have fired as often as was foretold, and printed what was foretold."""
        run = self.running.pop(0)
        fault = run.fault()
        if fault:
            raise Unshowable(fault, 70)
        self.firings += run.batch.firings


def stop(certifier: Certifier) -> None:
    """Ends the runs that go on."""
    for run in certifier.running:
        run.stop()
