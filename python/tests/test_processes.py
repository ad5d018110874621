"""A process as a graph, read from lines as the program prints them."""
from __future__ import annotations

import pytest

from leskvund import Functor, Process, Program, ProgramFailed

LINE = "p(L0, L1). q(L1). 'hot water'. -3(L0). {a(L2), {b(L2)}, (x :- y)}. (p(L0, L1) :- p(L1, L0))."


@pytest.mark.no_program
def test_atoms_and_their_names() -> None:
    process = Process(LINE)
    assert [str(atom.functor) for atom in process.atoms] == ['p/2', 'q/1', "'hot water'/0", '-3/1', 'a/1', 'b/1']
    assert [atom.name for atom in process.atoms] == ['p', 'q', 'hot water', '-3', 'a', 'b']
    assert [atom.value for atom in process.atoms] == [None, None, None, -3, None, None]
    assert [atom.membrane.number for atom in process.atoms] == [0, 0, 0, 0, 1, 2]
    assert repr(process.atoms[0]) == 'p(L0, L1)'


@pytest.mark.no_program
def test_a_name_in_quotes_is_no_integer() -> None:
    atom = Process("'3'(L0). p(L0).").atoms[0]
    assert (atom.name, atom.value, atom.functor) == ('3', None, Functor("'3'", 1))


@pytest.mark.no_program
def test_links_lead_from_atom_to_atom() -> None:
    process = Process(LINE)
    p, q, _, three, a, b = process.atoms
    assert p.neighbours() == [three, q] and three.neighbours() == [p]
    assert p.neighbour(1) == (q, 0) and q.neighbour(0) == (p, 1)
    assert a.neighbours() == [b]
    assert [len(link.ends) for link in process.links] == [2, 2, 2]


@pytest.mark.no_program
def test_a_link_from_an_atom_to_itself() -> None:
    atom = Process('a(L0, L1, L0). b(L1).').atoms[0]
    assert atom.neighbour(0) == (atom, 2) and atom.neighbour(2) == (atom, 0)


@pytest.mark.no_program
def test_membranes_and_rules() -> None:
    process = Process(LINE)
    root, outer, inner = process.membranes
    assert root.is_root and not outer.is_root and inner.parent is outer and outer.parent is root
    assert root.membranes == [outer] and outer.membranes == [inner]
    assert [rule.text for rule in outer.rules] == ['x :- y'] and [rule.text for rule in process.rules] == ['p(L0, L1) :- p(L1, L0)']
    assert list(root.below()) == process.membranes


@pytest.mark.no_program
def test_counts_and_finds() -> None:
    process = Process('a. a. {a, a(L0), b(L0)}.')
    assert process.count('a/0') == 3 and process.count('a/1') == 1 and process.count('c/0') == 0
    assert process.find('a/1') == [process.atoms[3]]
    assert process.functors() == {Functor('a', 0): 3, Functor('a', 1): 1, Functor('b', 1): 1}


@pytest.mark.no_program
@pytest.mark.parametrize('text', ['a', 'A/0', 'hot water/0', '/1', 'a/x', "'a/0"])
def test_what_is_no_functor(text: str) -> None:
    with pytest.raises(ValueError):
        Process('a.').count(text)


@pytest.mark.no_program
def test_folded_terms_are_atoms() -> None:
    # The atoms are those of the table of short forms in docs/syntax.md.
    process = Process("p(q(a), L0). end(L0). r([a, b | L1]). s(L1). t([]). u(-3, 'it''s').")
    assert process.functors() == {
        Functor('p', 2): 1, Functor('q', 2): 1, Functor('a', 1): 2, Functor('end', 1): 1, Functor('r', 1): 1, Functor("'.'", 3): 2, Functor('b', 1): 1,
        Functor('s', 1): 1, Functor('t', 1): 1, Functor("'[]'", 1): 1, Functor('u', 2): 1, Functor('-3', 1): 1, Functor("'it''s'", 1): 1,
    }
    assert process.is_same_as(Process(
        "p(L0, L1). q(L2, L0). a(L2). end(L1). r(L3). '.'(L4, L5, L3). a(L4). '.'(L6, L7, L5). b(L6). s(L7). t(L8). '[]'(L8). "
        "u(L9, L10). -3(L9). 'it''s'(L10)."))


@pytest.mark.no_program
def test_deep_terms_are_read() -> None:
    process = Process('p(' + 's(' * 5000 + 'z' + ')' * 5000 + ').')
    assert len(process.atoms) == 5002 and process.count('s/2') == 5000


@pytest.mark.no_program
def test_same_processes() -> None:
    assert Process('a(L0). b(L0). {c}. {d}. (a :- b).').is_same_as(Process('b(L7). a(L7). {d}. {c}. (a :- b).'))
    assert not Process('a(L0, L1). b(L0, L1).').is_same_as(Process('a(L0, L1). b(L1, L0).'))
    assert not Process('{a}. {b}.').is_same_as(Process('{a, b}. {}.'))
    assert not Process('{a, (a :- b)}.').is_same_as(Process('{a}.'))


@pytest.mark.no_program
def test_folded_text_has_no_rules() -> None:
    assert Process("p(L0). '.'(L1, L2, L0). 1(L1). '[]'(L2). {b, (b :- c)}. (a :- b).").folded() == 'p([1]). {b}'
    assert Process('').folded() == '(nothing)'


@pytest.mark.no_program
def test_plain_line_has_each_atom_by_itself() -> None:
    assert Process(LINE).plain() == LINE
    assert Process("p(q(L0), r). s(L0). {t([])}. (a :- b).").plain() == "q(L0, L1). r(L2). p(L1, L2). s(L0). {'[]'(L3), t(L3)}. (a :- b)."


@pytest.mark.no_program
def test_equal_lines_are_equal() -> None:
    assert Process('a.\n') == Process('a.') and len({Process('a.'), Process('a.'), Process('b.')}) == 2
    assert Process('a.') != 'a.'
    assert repr(Process('a.')) == "Process('a.')" and len(repr(Process('a. ' * 100))) < 120


@pytest.mark.no_program
@pytest.mark.parametrize('line', ['a(L0).', 'a(L0). b(L0). c(L0).', '{a', 'A.', 'p(q(.', 'a }'])
def test_lines_that_no_run_prints(line: str) -> None:
    with pytest.raises(ProgramFailed):
        Process(line).atoms


def test_a_process_is_a_program_again() -> None:
    process = Program('p(q(X, [1, 2 | X])). n(\'3\', -3), \'it\'\'s\'. {a(Y)}. {b(Y), {}, (x :- y)}. r @@ a, b :- c.').first
    assert Program(process.text).first == process
