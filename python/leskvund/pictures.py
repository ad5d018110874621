"""A picture of a process that needs nothing from elsewhere."""
from __future__ import annotations

import html
import math

from typing import TYPE_CHECKING

from leskvund.errors import LeskvundError
from leskvund.placing import Body, Layout, short_name, width_of
from leskvund.processes import Atom, Link, Membrane, Process

if TYPE_CHECKING:
    from leskvund.reachability import ReachabilityGraph

# A picture of more is no picture.
MOST_ITEMS, MOST_PROCESSES = 2000, 300
MARGIN = 10
HALF_HEIGHT = 10
WIDEST = 900
FONT = 'font-family="system-ui, sans-serif" text-anchor="middle" dominant-baseline="central"'


def picture_of(process: Process) -> str:
    """The picture as SVG; LeskvundError where there is too much for one."""
    count = len(process.atoms) + len(process.membranes)
    if count > MOST_ITEMS:
        raise LeskvundError(f'{len(process.atoms)} atoms and {len(process.membranes) - 1} membranes are too many for a picture, which takes {MOST_ITEMS}')
    spots = Layout(process).spots()
    inside = [it for it in spots.items() if it[0] is not process.root]
    parts = [circle(spot) for it, spot in inside if isinstance(it, Membrane)]
    parts += [line(spots, link) for link in process.links]
    parts += [box(it, spot) for it, spot in inside if isinstance(it, Atom)]
    return framed([spot for _, spot in inside], parts)


def framed(spots: list[Body], parts: list[str]) -> str:
    """The picture with its frame."""
    left, right = min([-20.0, *(it.x - it.radius for it in spots)]) - MARGIN, max([20.0, *(it.x + it.radius for it in spots)]) + MARGIN
    top, bottom = min([-20.0, *(it.y - it.radius for it in spots)]) - MARGIN, max([20.0, *(it.y + it.radius for it in spots)]) + MARGIN
    width, height = right - left, bottom - top
    scale = min(1.0, WIDEST / max(width, height))
    head = f'<svg xmlns="http://www.w3.org/2000/svg" viewBox="{left:.1f} {top:.1f} {width:.1f} {height:.1f}" width="{width * scale:.0f}" height="{height * scale:.0f}">'
    return '\n'.join([head, *parts, '</svg>'])


def circle(spot: Body) -> str:
    """A membrane."""
    return f'<circle cx="{spot.x:.1f}" cy="{spot.y:.1f}" r="{spot.radius:.1f}" fill="#4a78b0" fill-opacity="0.07" stroke="#4a78b0" stroke-width="1.2"/>'


def box(atom: Atom, spot: Body) -> str:
    """An atom, with its functor where the mouse rests on it."""
    width, name, functor = width_of(atom), html.escape(short_name(atom)), html.escape(str(atom.functor))
    shape = f'<rect x="{spot.x - width / 2:.1f}" y="{spot.y - HALF_HEIGHT:.1f}" width="{width:.1f}" height="{2 * HALF_HEIGHT}" rx="8" fill="#fff" stroke="#555"/>'
    return f'<g>{shape}<text x="{spot.x:.1f}" y="{spot.y:.1f}" font-size="11" {FONT}>{name}</text><title>{functor}</title></g>'


def line(spots: dict[Atom | Membrane, Body], link: Link) -> str:
    """A link, and at each end the port where the atom has more than one."""
    (one, port), (other, there) = link.ends
    a, b = spots[one], spots[other]
    if one is other:
        return f'<ellipse cx="{a.x:.1f}" cy="{a.y - 14:.1f}" rx="9" ry="9" fill="none" stroke="#888"/>'
    distance = math.hypot(b.x - a.x, b.y - a.y) or 1
    x, y = (b.x - a.x) / distance, (b.y - a.y) / distance
    start, end = edge(one, a, x, y), edge(other, b, -x, -y)
    drawn = f'<line x1="{start[0]:.1f}" y1="{start[1]:.1f}" x2="{end[0]:.1f}" y2="{end[1]:.1f}" stroke="#888"/>'
    return drawn + mark(one, start, x, y, port) + mark(other, end, -x, -y, there)


def edge(atom: Atom, spot: Body, x: float, y: float) -> tuple[float, float]:
    """Where a line from the middle of an atom's box, in a direction, leaves the box."""
    reach = min(width_of(atom) / 2 / (abs(x) or 1e-9), HALF_HEIGHT / (abs(y) or 1e-9))
    return spot.x + x * reach, spot.y + y * reach


def mark(atom: Atom, at: tuple[float, float], x: float, y: float, port: int) -> str:
    """The number of an argument beside its link."""
    if len(atom.links) < 2:
        return ''
    return f'<text x="{at[0] + x * 6 - y * 5:.1f}" y="{at[1] + y * 6 + x * 5:.1f}" font-size="8" fill="#888" {FONT}>{port + 1}</text>'


# A process of a reachability graph: how far columns and rows are apart, and how large its circle is.
COLUMN, ROW, RADIUS = 70.0, 34.0, 11.0


def picture_of_graph(graph: ReachabilityGraph) -> str:
    """All that can be reached: a circle for each process, in columns by the firings that lead to it, and an arrow for each firing.

    An end has a second circle, and a process that wasn't asked for its firings a dashed one. Where the mouse rests on a circle or an
    arrow, the process or the rule is told.
    """
    if len(graph) > MOST_PROCESSES:
        raise LeskvundError(f'{len(graph)} processes are too many for a picture, which takes {MOST_PROCESSES}')
    spots = columns(graph)
    parts = [arrow(spots[firing.start], spots[firing.end], str(firing.rule)) for firing in graph.firings]
    ends = set(graph.ends)
    parts += [node(number, spot, graph.folded(number), number in ends, number < graph.asked) for number, spot in enumerate(spots)]
    return framed(spots, parts)


def columns(graph: ReachabilityGraph) -> list[Body]:
    """A place for each process: its column by its depth, in the column by its number."""
    rows: dict[int, int] = {}
    depths = [graph.depth(number) for number in range(len(graph))]
    spots = []
    for depth in depths:
        spot = Body(RADIUS)
        spot.x, spot.y = COLUMN * depth, ROW * (rows.get(depth, 0) - (depths.count(depth) - 1) / 2)
        rows[depth] = rows.get(depth, 0) + 1
        spots.append(spot)
    return spots


def node(number: int, spot: Body, told: str, is_end: bool, is_asked: bool) -> str:
    """A process."""
    dashes = '' if is_asked else ' stroke-dasharray="3 2"'
    outer = f'<circle cx="{spot.x:.1f}" cy="{spot.y:.1f}" r="{RADIUS + 3}" fill="none" stroke="#555"/>' if is_end else ''
    inner = f'<circle cx="{spot.x:.1f}" cy="{spot.y:.1f}" r="{RADIUS}" fill="#fff" stroke="#555"{dashes}/>'
    return f'<g>{outer}{inner}<text x="{spot.x:.1f}" y="{spot.y:.1f}" font-size="9" {FONT}>{number}</text><title>{html.escape(told)}</title></g>'


def arrow(start: Body, end: Body, rule: str) -> str:
    """A firing: a line that bends to its left, so that those to and fro can be told apart; one to the process itself is a loop."""
    title = f'<title>{html.escape(rule)}</title>'
    if start is end:
        return f'<g><ellipse cx="{start.x:.1f}" cy="{start.y - RADIUS - 6:.1f}" rx="6" ry="9" fill="none" stroke="#888"/>{title}</g>'
    distance = math.hypot(end.x - start.x, end.y - start.y)
    x, y = (end.x - start.x) / distance, (end.y - start.y) / distance
    bend = 0.0 if 0 < end.x - start.x <= COLUMN else 0.2 * distance
    middle = (start.x + end.x) / 2 + y * bend, (start.y + end.y) / 2 - x * bend
    reach = math.hypot(end.x - middle[0], end.y - middle[1])
    u, v = (end.x - middle[0]) / reach, (end.y - middle[1]) / reach
    tip = end.x - u * (RADIUS + 4), end.y - v * (RADIUS + 4)
    curve = f'<path d="M {start.x:.1f} {start.y:.1f} Q {middle[0]:.1f} {middle[1]:.1f} {tip[0]:.1f} {tip[1]:.1f}" fill="none" stroke="#888"/>'
    wings = [(tip[0] - u * 6 + side * v * 3, tip[1] - v * 6 - side * u * 3) for side in (1, -1)]
    head = ' '.join(f'{point[0]:.1f},{point[1]:.1f}' for point in (tip, *wings))
    return f'<g>{curve}<polygon points="{head}" fill="#888"/>{title}</g>'
