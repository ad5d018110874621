"""All processes that a program can reach, their numbers told by formulas or counted by hand."""
from __future__ import annotations

import math

import pytest

from leskvund import Process, Program, Refused

SWITCHES = 'off(X) :- on(X). on(X) :- off(X).\n'
LOST = '''read @@ thread($t, $n), cell($v) :- unary($t), $n > 0, int($v) | thread($t, $n, $v), cell($v).
write @@ thread($t, $n, $r), cell($v) :- unary($t), int($v), $m = $n - 1, $w = $r + 1 | thread($t, $m), cell($w).
cell(0). thread(a, 2). thread(b, 2).
'''
CIRCLE = 'a :- b. b :- a. a :- c. c :- d. d :- c. a.'


@pytest.mark.parametrize('number', [1, 3, 5])
def test_switches_with_names(number: int) -> None:
    reached = Program(SWITCHES + ' '.join(f'off({at}).' for at in range(number))).explore()
    assert reached.is_whole and len(reached) == 2 ** number and reached.ends == []
    assert len(reached.firings) == number * 2 ** number


def test_choices_by_depth() -> None:
    reached = Program('take @@ in($x) :- int($x) | out($x). ' + ' '.join(f'in({at}).' for at in range(4))).explore()
    depths = [reached.depth(number) for number in range(len(reached))]
    assert [depths.count(depth) for depth in range(5)] == [math.comb(4, depth) for depth in range(5)]
    assert [process.count('out/1') for process in reached] == depths
    assert [len(reached.way_to(number)) for number in range(len(reached))] == depths


def test_a_way_is_made_of_firings_that_follow_each_other() -> None:
    reached = Program('r @@ a :- b. s @@ b :- c. c :- d. a.').explore()
    way = reached.way_to(3)
    assert [(firing.start, firing.rule.name, firing.end) for firing in way] == [(0, 'r', 1), (1, 's', 2), (2, None, 3)]
    assert set(way) == set(reached.firings) and reached.ends == [3]
    assert reached[0] == Program('r @@ a :- b. s @@ b :- c. c :- d. a.').first and reached[3].count('d/0') == 1
    assert reached[1:3] == [reached[1], reached[2]]


def test_processes_are_whole_programs() -> None:
    reached = Program('{a. a :- b.}. {c. c :- d.}.').explore()
    assert len(reached) == 4 and len(reached.ends) == 1
    assert all(len(process.membranes[1].rules) == 1 for process in reached)
    assert Program(reached[0].text).explore()[3].is_same_as(reached[3])


def test_two_threads_that_lose_updates() -> None:
    reached = Program(LOST).explore(heads=['cell(3)', 'cell($v) :- $v > 4'])
    assert len(reached) == 57 and len(reached.firings) == 82
    ends = sorted(process.find('cell/1')[0].neighbours()[0].value for process in (reached[end] for end in reached.ends))
    assert ends == [2, 3, 4]
    assert len(reached.matching('cell(3)')) == 9 and reached.matching('cell($v) :- $v > 4') == []
    assert reached.firings_made >= 82


def test_circles_and_what_can_be_reached() -> None:
    reached = Program(CIRCLE).explore(heads=['a', 'c'])
    assert len(reached) == 4
    assert sorted(map(len, reached.circles())) == [2, 2] and len(reached.livelocks()) == 1
    assert {reached[number].count('c/0') + reached[number].count('d/0') for number in reached.livelocks()[0]} == {1}
    assert reached.can_reach(reached.matching('c')) == {0, 1, 2, 3}
    assert reached.can_reach(reached.matching('a')) == {0, 1}


def test_at_most_so_many() -> None:
    reached = Program('n($x) :- $y = $x + 1 | n($y). n(0).').explore(most=20)
    assert not reached.is_whole and reached.asked < len(reached) <= 22
    assert 'not all' in repr(reached)


def test_a_head_that_is_none_is_refused() -> None:
    with pytest.raises(Refused):
        Program('a.').explore(heads=['a(X'])


def test_heads_are_looked_for_at_the_root_or_anywhere() -> None:
    program = Program('{a. a :- b.}.')
    assert program.explore(heads=['b']).matching('b') == []
    assert program.explore(heads=['b'], anywhere=True).matching('b') == [1]
    with pytest.raises(KeyError):
        program.explore().matching('b')


def test_a_program_without_rules() -> None:
    reached = Program('').explore()
    assert list(reached) == [Process('')] and reached.ends == [0] and reached.firings == []
