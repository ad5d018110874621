"""Refusals with code, place and words, and the other ways in which a call can fail."""
from __future__ import annotations

import os
import pickle
import stat
import time
from pathlib import Path

import pytest
from conftest import refusals

from leskvund import (
    LeskvundError,
    ListingRefused,
    OutOfMemory,
    Program,
    ProgramFailed,
    ProgramMissing,
    ReadFailed,
    Refused,
    ScriptRefused,
    TimedOut,
    TraceRefused,
    WeightsRefused,
    WordsRefused,
    WriteFailed,
)
from leskvund.errors import error_of


@pytest.mark.parametrize('row', refusals(), ids=lambda row: row[0].strip('`'))
def test_each_refusal_of_the_page(row: list[str]) -> None:
    code, words, refused, place, accepted = row[0].strip('`'), row[1], row[3].strip('`'), row[4], row[5].strip('`')
    line, column = map(int, place.split(':'))
    with pytest.raises(Refused) as caught:
        Program(refused).run()
    error = caught.value
    assert (error.code, error.line, error.column, error.words, error.status) == (code, line, column, words, 2)
    assert str(error) == f'{code} {place} {words}'
    Program(accepted).run(budget=0)


@pytest.mark.parametrize('ask', [Program.run, Program.trace, Program.compile, Program.explore, lambda it: it.first, lambda it: it.rules,
                                 lambda it: it.check('a.'), lambda it: it.bound({})])
def test_each_call_refuses_the_text(ask) -> None:
    with pytest.raises(Refused) as caught:
        ask(Program('a(X) :- b.'))
    assert caught.value.code == 'E22' and type(caught.value) is Refused


def test_a_process_beyond_the_size() -> None:
    with pytest.raises(Refused) as caught:
        Program('a. a. a.').run(size=2)
    assert (caught.value.code, caught.value.line, caught.value.column) == ('E50', 1, 1)


def test_a_column_is_counted_in_bytes() -> None:
    with pytest.raises(Refused) as caught:
        Program("'é', a(X).").run()
    assert (caught.value.code, caught.value.column) == ('E20', 9)


@pytest.mark.no_program
@pytest.mark.parametrize('status, said, kind', [
    (2, 'E10 1:5 unexpected token', Refused), (8, 'E62 3:1 wrong end', TraceRefused), (9, 'E71 2:1 unknown command', ScriptRefused), (10, 'E82 1:1 code not verified', ListingRefused),
    (11, 'E86 1:4 rule not lowered', WeightsRefused), (3, 'lmn: words not understood', WordsRefused), (4, 'lmn: read failed', ReadFailed),
    (5, 'lmn: write failed', WriteFailed), (6, 'lmn: out of memory', OutOfMemory), (70, 'lmn: not built: no kit', ProgramMissing),
    (-11, '', ProgramFailed), (2, 'nonsense', ProgramFailed), (99, 'x', ProgramFailed),
])
def test_each_status_has_an_exception(status: int, said: str, kind: type[LeskvundError]) -> None:
    error = error_of(status, said)
    assert type(error) is kind and error.status == status and isinstance(error, LeskvundError)
    assert said in str(error)


@pytest.mark.no_program
def test_refusals_can_be_pickled() -> None:
    error = TraceRefused('E62', 3, 1, 'wrong end')
    again = pickle.loads(pickle.dumps(error))
    assert type(again) is TraceRefused and (again.code, again.line, again.column, again.words) == ('E62', 3, 1, 'wrong end')


@pytest.mark.no_program
def test_a_program_that_is_not_there(monkeypatch: pytest.MonkeyPatch) -> None:
    monkeypatch.setenv('LMN', '/no/such/program')
    with pytest.raises(ProgramMissing, match='/no/such/program'):
        Program('a.').run()


@pytest.mark.no_program
def test_no_program_anywhere(monkeypatch: pytest.MonkeyPatch) -> None:
    monkeypatch.delenv('LMN', raising=False)
    monkeypatch.setenv('PATH', '')
    monkeypatch.setattr('leskvund.program.BUILT', '/no/such/program')
    with pytest.raises(ProgramMissing, match='LMN'):
        Program('a.').run()


@pytest.fixture
def stand_in(tmp_path: Path, monkeypatch: pytest.MonkeyPatch):
    """Has a script run in place of the program."""
    def put(script: str) -> None:
        file = tmp_path / 'lmn'
        file.write_text('#!/bin/sh\n' + script)
        os.chmod(file, stat.S_IRWXU)
        monkeypatch.setenv('LMN', str(file))
    return put


@pytest.mark.no_program
def test_memory_that_ends_a_run_is_an_ending_and_before_it_an_error(stand_in) -> None:
    stand_in('echo "a. (a :- a, a)."; echo "% no memory after 3"; exit 6')
    run = Program('').run()
    assert (run.ending.value, run.firings, run.process.text) == ('no memory', 3, 'a. (a :- a, a).')
    stand_in('echo "lmn: out of memory" >&2; exit 6')
    with pytest.raises(OutOfMemory):
        Program('').run()


@pytest.mark.no_program
@pytest.mark.parametrize('script', ['exit 0', 'echo a.; exit 0', 'echo "% tired after 3"', 'echo "% full after x"', 'kill -9 $$'])
def test_a_program_that_is_another_one(stand_in, script: str) -> None:
    stand_in(script)
    with pytest.raises(ProgramFailed):
        Program('').run()


@pytest.mark.no_program
def test_all_that_was_started_ends_with_the_time(stand_in, tmp_path: Path) -> None:
    stand_in(f'sleep 60 & echo $! > {tmp_path}/number; wait')
    begun = time.monotonic()
    with pytest.raises(TimedOut):
        Program('').run(seconds=0.5)
    assert time.monotonic() - begun < 10
    state = Path(f'/proc/{(tmp_path / "number").read_text().strip()}/stat')
    deadline = time.monotonic() + 5
    while state.exists() and state.read_text().split()[2] != 'Z':
        assert time.monotonic() < deadline
        time.sleep(0.05)


@pytest.mark.no_program
def test_the_program_on_path(stand_in, monkeypatch: pytest.MonkeyPatch) -> None:
    stand_in('echo b.; echo "% irreducible after 0"')
    monkeypatch.setenv('PATH', os.path.dirname(os.environ['LMN']) + os.pathsep + os.environ['PATH'])
    monkeypatch.delenv('LMN')
    monkeypatch.setattr('leskvund.program.BUILT', '/no/such/program')
    assert Program('').run().process.text == 'b.'
