"""Pictures for notebooks, and graphs of networkx."""
from __future__ import annotations

import itertools
import math
import sys
import xml.etree.ElementTree as ElementTree

import pytest

from leskvund import LeskvundError, Process, Program
from leskvund.placing import Layout

SVG = '{http://www.w3.org/2000/svg}'
LINE = "p(L0, L1). q(L1). '<&'. -3(L0). {a(L2), {b(L2)}, {}, (x :- y)}. l(L3, L3)."


@pytest.mark.no_program
def test_a_picture_has_all_atoms_membranes_and_links() -> None:
    picture = ElementTree.fromstring(Process(LINE)._repr_svg_())
    assert picture.tag == f'{SVG}svg'
    assert [title.text for title in picture.iter(f'{SVG}title')] == ['p/2', 'q/1', "'<&'/0", '-3/1', 'l/2', 'a/1', 'b/1']
    assert len(list(picture.iter(f'{SVG}circle'))) == 3
    assert len(list(picture.iter(f'{SVG}line'))) == 3 and len(list(picture.iter(f'{SVG}ellipse'))) == 1
    assert '<&' in [text.text for text in picture.iter(f'{SVG}text')]


@pytest.mark.no_program
def test_a_picture_needs_nothing_from_elsewhere_and_is_the_same_each_time() -> None:
    picture = Process(LINE).to_svg()
    assert 'href' not in picture and 'url(' not in picture and picture == Process(LINE).to_svg()


@pytest.mark.no_program
def test_an_empty_process_has_a_picture() -> None:
    assert ElementTree.fromstring(Process('').to_svg()).tag == f'{SVG}svg'


@pytest.mark.no_program
@pytest.mark.parametrize('line', [LINE, 'a. ' * 40, '{a, {b, {c}}}. ' * 6, ' '.join(f'a(L{at}). b(L{at}).' for at in range(30)) + ' ' + '{c, d}. ' * 5])
def test_bodies_lie_apart_and_inside(line: str) -> None:
    process = Process(line)
    bodies = Layout(process).bodies
    for membrane in process.membranes:
        inside = [bodies[it] for it in (*membrane.membranes, *membrane.atoms)]
        for one, other in itertools.combinations(inside, 2):
            assert math.hypot(one.x - other.x, one.y - other.y) >= 0.9 * (one.radius + other.radius)
        assert all(math.hypot(it.x, it.y) + it.radius <= bodies[membrane].radius for it in inside)


@pytest.mark.no_program
def test_too_much_for_a_picture() -> None:
    process = Process('a. ' * 3000)
    assert process._repr_svg_() is None
    with pytest.raises(LeskvundError, match='too many'):
        process.to_svg()


def test_runs_and_traces_show_in_a_notebook() -> None:
    program = Program('a. {a}. a :- b.')
    assert '<svg' in program.run()._repr_html_() and 'irreducible after 1' in program.run()._repr_html_()
    shown = program.trace()._repr_html_()
    assert shown.startswith('<iframe srcdoc="') and '<script' not in shown and 'irreducible after 1' in program.trace().page()
    assert Program('n(0). n($x) :- $y = $x + 1 | n($y).').trace(budget=5000)._repr_html_() is None


def test_a_reachability_graph_has_a_picture() -> None:
    reached = Program('r @@ a :- b. s @@ b :- a. t @@ b :- c. u @@ b :- b. a.').explore()
    picture = ElementTree.fromstring(reached._repr_svg_())
    assert len(list(picture.iter(f'{SVG}circle'))) == 3 + 1 and len(list(picture.iter(f'{SVG}polygon'))) == 3
    assert sorted(title.text for title in picture.iter(f'{SVG}title')) == ['a', 'b', 'c', 'r @@ a :- b', 's @@ b :- a', 't @@ b :- c', 'u @@ b :- b']
    assert Program('n($x) :- $y = $x + 1 | n($y). n(0).').explore(most=400)._repr_svg_() is None


@pytest.mark.no_program
def test_a_process_as_a_graph_of_networkx() -> None:
    networkx = pytest.importorskip('networkx')
    graph = Process(LINE).to_networkx()
    assert isinstance(graph, networkx.MultiGraph) and graph.number_of_nodes() == 7 and graph.number_of_edges() == 4
    assert graph.nodes[0] == {'kind': 'atom', 'name': 'p', 'functor': 'p/2', 'membrane': 0}
    assert graph.edges[0, 1, 1]['ends'] == ((0, 1), (1, 0))
    assert sorted(map(len, networkx.connected_components(graph))) == [1, 1, 2, 3]


@pytest.mark.no_program
def test_membranes_as_nodes_of_networkx() -> None:
    pytest.importorskip('networkx')
    graph = Process(LINE).to_networkx(membranes=True)
    assert sorted(it for it in graph if isinstance(it, str)) == ['m0', 'm1', 'm2', 'm3']
    assert graph.nodes['m1'] == {'kind': 'membrane', 'rules': ['x :- y']}
    assert sorted(map(str, graph.neighbors('m1'))) == sorted(['m0', '5', 'm2', 'm3'])


def test_a_reachability_graph_as_one_of_networkx() -> None:
    networkx = pytest.importorskip('networkx')
    graph = Program('r @@ a :- b. s @@ a :- c. a.').explore().to_networkx()
    assert isinstance(graph, networkx.MultiDiGraph)
    assert sorted(data['rule'] for _, _, data in graph.edges(data=True)) == ['r', 's']
    assert [graph.nodes[node]['is_end'] for node in sorted(graph)] == [False, True, True]


@pytest.mark.no_program
def test_without_networkx_it_is_said(monkeypatch: pytest.MonkeyPatch) -> None:
    monkeypatch.setitem(sys.modules, 'networkx', None)
    with pytest.raises(LeskvundError, match='networkx is not installed'):
        Process('a.').to_networkx()
