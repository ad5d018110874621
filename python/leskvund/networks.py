"""Graphs of networkx, where it is installed."""
from __future__ import annotations

from typing import TYPE_CHECKING, Any

from leskvund.errors import LeskvundError
from leskvund.processes import Process

if TYPE_CHECKING:
    from leskvund.reachability import ReachabilityGraph


def imported() -> Any:
    """networkx; LeskvundError where it isn't installed."""
    try:
        import networkx
    except ImportError:
        raise LeskvundError('networkx is not installed: pip install networkx') from None
    return networkx


def process_graph(process: Process, membranes: bool) -> Any:
    """A process as a MultiGraph.

    An atom is a node by its number, with `kind` 'atom', its `name` and `functor`, and the number of its `membrane`. A link is an
    edge by its number, with `kind` 'link' and its `ends`, two pairs of an atom's number and a port. With `membranes` each membrane
    is a node too, as 'm0' for the root, with `kind` 'membrane' and its `rules`, and an edge of `kind` 'inside' leads to all in it.
    """
    graph = imported().MultiGraph()
    for atom in process.atoms:
        graph.add_node(atom.number, kind='atom', name=atom.name, functor=str(atom.functor), membrane=atom.membrane.number)
    for link in process.links:
        ends = tuple((end.atom.number, end.port) for end in link.ends)
        graph.add_edge(ends[0][0], ends[1][0], key=link.number, kind='link', ends=ends)
    for membrane in process.membranes if membranes else ():
        name = f'm{membrane.number}'
        graph.add_node(name, kind='membrane', rules=[rule.text for rule in membrane.rules])
        for inside in (*(atom.number for atom in membrane.atoms), *(f'm{inner.number}' for inner in membrane.membranes)):
            graph.add_edge(name, inside, kind='inside')
    return graph


def reachability_graph(graph: ReachabilityGraph) -> Any:
    """All that can be reached as a MultiDiGraph.

    A process is a node by its number, with its `text`, its `depth`, and whether it `is_end`; a firing is an edge with its `rule`,
    by its name or else by its text.
    """
    made, ends = imported().MultiDiGraph(), set(graph.ends)
    for number, process in enumerate(graph):
        made.add_node(number, text=process.text, depth=graph.depth(number), is_end=number in ends)
    for firing in graph.firings:
        made.add_edge(firing.start, firing.end, rule=firing.rule.name or firing.rule.text.strip())
    return made
