"""Calls of a program: what `run`, `trace`, `check`, `bound` and `compile` answer for the texts of docs/commands.md and the examples."""
from __future__ import annotations

import doctest
from pathlib import Path

import pytest
from conftest import texts_of_pages

import leskvund
from leskvund import (
    Ending,
    Functor,
    ListingRefused,
    NoWeights,
    Order,
    Process,
    Program,
    Run,
    ScriptRefused,
    TimedOut,
    TraceRefused,
    WeightsRefused,
)

SHARE = '''ready. ready. free.
take  @@ ready, free :- busy.
leave @@ busy :- done, free.
'''
SUM = 'sum(3), sum(4), sum(5).\nsum($x), sum($y) :- $z = $x + $y | sum($z).\n'
TURNS = '{a. a :- a.}. {c. c :- d.}.\n'


def test_run_of_an_example_is_what_the_program_prints(example: Path) -> None:
    line, end = example.with_suffix('.out').read_text(encoding='utf-8').split('\n')[:2]
    run = Program.from_file(example).run()
    assert run.process.text == line
    assert f'% {run.ending.value} after {run.firings}' == end


@pytest.mark.parametrize('text, options, line, ending, firings', [
    ('a. a :- a.', {'budget': 5}, 'a. (a :- a).', Ending.BUDGET, 5),
    ('a. a :- a, a.', {'size': 3}, 'a. a. (a :- a, a).', Ending.FULL, 1),
    (TURNS, {'budget': 3, 'order': 'turn'}, '{a, (a :- a)}. {d, (c :- d)}.', Ending.BUDGET, 3),
    ('', {}, '', Ending.IRREDUCIBLE, 0),
])
def test_options_of_run(text: str, options: dict, line: str, ending: Ending, firings: int) -> None:
    assert Program(text).run(**options) == Run(Process(line), ending, firings)


def test_order_is_the_seeds_where_a_seed_is_given() -> None:
    program = Program(TURNS)
    assert program.run(budget=9, seed=3) == program.run(budget=9, seed=3, order=Order.SEED) == program.run(budget=9, seed=3, order='seed')


def test_first_order_lets_a_membrane_wait() -> None:
    assert Program(TURNS).run(budget=3).process.text == '{a, (a :- a)}. {c, (c :- d)}.'


@pytest.mark.parametrize('options', [{'budget': -1}, {'budget': 2 ** 63}, {'size': 0}, {'size': 2 ** 32}, {'seed': -1}, {'order': 'last'}, {'budget': True}])
def test_values_out_of_range_are_errors_of_the_caller(options: dict) -> None:
    with pytest.raises(ValueError):
        Program('a.').run(**options)


def test_folded_line_and_its_graph() -> None:
    program = Program('append([a, b], [c], R), result(R).')
    folded, plain = program.run(folded=True).process, program.run().process
    assert folded.text == 'append([a, b], [c], result).'
    assert folded.functors() == plain.functors()
    assert folded.is_same_as(plain)


def test_folded_example_is_the_same_process(example: Path) -> None:
    program = Program.from_file(example)
    assert program.run(folded=True).process.is_same_as(program.run().process)


@pytest.mark.parametrize('text', texts_of_pages())
def test_folded_texts_of_pages_are_the_same_processes(text: str) -> None:
    program = Program(text)
    folded, plain = program.run(folded=True, budget=50).process, program.run(budget=50).process
    assert folded.functors() == plain.functors() and folded.is_same_as(plain)


def test_trace_goes_from_the_first_process_to_the_last() -> None:
    program = Program(SHARE)
    trace = program.trace()
    assert len(trace) == 5 and trace.firings == 4 and trace.ending is Ending.IRREDUCIBLE
    assert trace[0] == program.first and trace[-1] == program.run().process
    assert trace[1].text == 'ready. busy. (ready, free :- busy). (busy :- done, free).'
    assert [process.count('done/0') for process in trace] == [0, 0, 1, 1, 2]
    assert trace[1:3] == [trace[1], trace[2]]


def test_trace_tells_which_rules_fired() -> None:
    trace = Program(SHARE).trace()
    assert [rule.text for rule in trace.fired] == ['ready, free :- busy', 'busy :- done, free'] * 2
    assert trace.rules == Program(SHARE).rules and [rule.name for rule in trace.rules] == ['take', 'leave']
    assert [rule.name for rule in trace.fired] == ['take', 'leave'] * 2 and 'take @@ ready' in trace.page()


def test_rules_of_a_trace_in_another_order() -> None:
    trace = Program(TURNS).trace(budget=3, order='turn')
    assert sorted(rule.text for rule in trace.fired) == ['a :- a', 'a :- a', 'c :- d']


def test_check_of_a_trace() -> None:
    program = Program(SHARE)
    assert program.check(program.trace()) == 4
    assert Program(TURNS).check(Program(TURNS).trace(budget=7, order='turn')) == 7


def test_check_refuses_a_trace_that_claims_an_end() -> None:
    with pytest.raises(TraceRefused) as caught:
        Program('a. a :- b.').check('a. (a :- b).\n% irreducible after 0\n')
    error = caught.value
    assert (error.code, error.line, error.column, error.words, error.status) == ('E62', 2, 1, 'wrong end', 8)


def test_check_refuses_the_trace_of_another_text() -> None:
    with pytest.raises(TraceRefused) as caught:
        Program(SHARE).check(Program('a.').trace())
    assert (caught.value.code, caught.value.line, caught.value.column) == ('E61', 1, 1)


def test_bound() -> None:
    shake = Program('''{client, start}. {server, listen}.
send  @@ {client, start} :- {client, wait}, syn.
offer @@ syn, {server, listen} :- {server, half}, synack.
reply @@ synack, {client, wait} :- {client, open}, ack.
close @@ ack, {server, half} :- {server, open}.
''')
    weights = {'start/0': 2, 'listen/0': 2, 'wait/0': 1, 'half/0': 1}
    assert shake.bound(weights) == 4
    assert shake.bound({Functor.of(functor): weight for functor, weight in weights.items()}) == 4


def test_weights_are_such_that_bound_takes_them() -> None:
    assert Program('a :- b. b :- . a. a. b.').weights() == {'a/0': 2, 'b/0': 1}
    program = Program('a, a :- b, c. c :- . b :- a. a. a.')
    assert program.bound(program.weights()) >= program.run().firings


def test_rules_that_make_what_they_take_have_no_weights() -> None:
    with pytest.raises(NoWeights, match='1 times r @@ a :- b\n  1 times s @@ b :- a'):
        Program('r @@ a :- b. s @@ b :- a. a.').weights()


def test_bound_refuses_a_rule_that_is_not_lowered() -> None:
    with pytest.raises(WeightsRefused) as caught:
        Program('a. a :- a.').bound({'a/0': 5})
    assert (caught.value.code, caught.value.line, caught.value.column, caught.value.words) == ('E86', 1, 4, 'rule not lowered')


def test_compile() -> None:
    assert Program(SUM).compile() == [[
        'FINDATOM A0 M0 sum/1', 'FINDATOM A1 M0 sum/1', 'NEQATOM A1 A0', 'ISINT G0 A0.0 M0', 'ISINT G1 A1.0 M0', 'GETINT V0 G0', 'GETINT V1 G1',
        'ADD V2 V0 V1', 'COMMIT', 'REMOVEATOM A0', 'REMOVEATOM A1', 'REMOVEPART G0', 'REMOVEPART G1', 'NEWATOM A2 M0 sum/1', 'NEWINT A3 M0 V2',
        'NEWLINK A2.0 A3.0', 'PROCEED',
    ]]
    assert len(Program(SHARE).compile()) == 2
    assert Program('a.').compile() == []


TWO = 'a. a. a, a :- b.'


def test_execute_runs_by_a_listing_changed_by_hand() -> None:
    program = Program(TWO)
    listing = [[line.replace('NEWATOM A2 M0 b/0', 'NEWATOM A2 M0 c/0') for line in rule] for rule in program.compile()]
    assert program.execute(listing) == Run(Process('c. (a, a :- b).'), Ending.IRREDUCIBLE, 1)
    assert program.execute(program.compile()) == program.run()


def test_execute_refuses_code_that_would_be_run_wrongly() -> None:
    program = Program(TWO)
    with pytest.raises(ListingRefused) as caught:
        program.execute([[line for line in rule if line != 'REMOVEATOM A1'] for rule in program.compile()])
    assert (caught.value.code, caught.value.line, caught.value.column, caught.value.words) == ('E82', 1, 1, 'code not verified')


def test_debug_goes_forward_and_back() -> None:
    assert Program(SHARE).debug('step 1\nshow\nuntil done/0 =:= 2\nback 1\nshow\nstep 5\n') == [
        '% at 1', 'ready. busy. (ready, free :- busy). (busy :- done, free).', '% at 4 met', '% at 3',
        'done. busy. (ready, free :- busy). (busy :- done, free).', '% at 4 irreducible',
    ]


def test_debug_refuses_what_is_no_command() -> None:
    with pytest.raises(ScriptRefused) as caught:
        Program(SHARE).debug('step 1\ngo\n')
    assert (caught.value.code, caught.value.line, caught.value.column, caught.value.words) == ('E71', 2, 1, 'unknown command')


def test_rules_have_their_names() -> None:
    assert [(rule.name, rule.text) for rule in Program(SHARE).rules] == [('take', 'ready, free :- busy'), ('leave', 'busy :- done, free')]
    assert [str(rule) for rule in Program('r @@ a :- b. c :- d.').rules] == ['r @@ a :- b', 'c :- d']


def test_run_that_takes_too_long_is_ended() -> None:
    with pytest.raises(TimedOut):
        Program('a. a :- a.').run(budget=2 ** 63 - 1, seconds=0.2)


def test_text_of_any_bytes_and_lines(tmp_path: Path) -> None:
    file = tmp_path / 'it.lmn'
    file.write_bytes(b"% \xff caf\xc3\xa9\r\n'caf\xc3\xa9'.\r\n")
    program = Program.from_file(file)
    assert program.text.encode('utf-8', 'surrogateescape') == file.read_bytes()
    assert [atom.name for atom in program.first.atoms] == ['café']


def test_the_example_of_the_package() -> None:
    assert doctest.testmod(leskvund) == (0, 3)


def test_program_tells_how_long_its_text_is() -> None:
    assert repr(Program(SHARE)) == '<program of 3 lines>'
    assert repr(Program('a.')) == '<program of 1 line>'
