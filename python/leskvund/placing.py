"""Places for a picture: in each membrane what touches parts and what is linked comes near, and a circle goes round all of it.

It is the layout of a page's first process (page.js), and comes out alike each time.
"""
from __future__ import annotations

import math

from leskvund.processes import Atom, Link, Membrane, Process

GAP, LEAST_GAP, LINK, PADDING = 14.0, 3.0, 24.0, 12.0
LEAST_MEMBRANE = 20.0
MOST_LETTERS = 28
MOST_ROUNDS, LEAST_ROUNDS, MOST_PARTED = 200, 8, 60
# How often two bodies are compared in one membrane, so that a picture takes a second.
MOST_COMPARED = 1_000_000


class Body:
    """An atom or a membrane on a picture: its middle, told from that of the membrane in which it lies, and its radius."""

    __slots__ = ('x', 'y', 'radius')

    def __init__(self, radius: float) -> None:
        self.x, self.y, self.radius = 0.0, 0.0, radius


def short_name(atom: Atom) -> str:
    """The name as it stands on a picture."""
    name = atom.name
    return name if len(name) <= MOST_LETTERS else name[:MOST_LETTERS - 1] + '…'


def width_of(atom: Atom) -> float:
    """The width of the box of an atom."""
    return max(20.0, 12 + 6.4 * len(short_name(atom)))


class Layout:
    """The places of all atoms and membranes of a process."""

    def __init__(self, process: Process) -> None:
        self.process = process
        self.bodies: dict[Atom | Membrane, Body] = {}
        for atom in process.atoms:
            self.bodies[atom] = Body(max(13.0, width_of(atom) / 2))
        for membrane in process.membranes:
            self.bodies[membrane] = Body(LEAST_MEMBRANE)
        pulls = self.pulls()
        for membrane in reversed(process.membranes):
            self.settle(membrane, pulls.get(membrane, []))

    def pulls(self) -> dict[Membrane, list[tuple[Body, Body]]]:
        """For each membrane the pairs of bodies in it that a link pulls together."""
        pulls: dict[Membrane, list[tuple[Body, Body]]] = {}
        for link in self.process.links:
            found = self.pulled(link)
            if found is not None:
                pulls.setdefault(found[0], []).append(found[1:])
        return pulls

    def pulled(self, link: Link) -> tuple[Membrane, Body, Body] | None:
        """The innermost membrane round both ends of a link, and the bodies in it that hold one each."""
        one, other = walls_of(link.ends[0].atom), walls_of(link.ends[1].atom)
        membrane = one[-1]
        while one and other and one[-1] is other[-1]:
            membrane = one.pop()
            other.pop()
        return (membrane, self.bodies[one[-1]], self.bodies[other[-1]]) if one and other and isinstance(membrane, Membrane) else None

    def settle(self, membrane: Membrane, pulls: list[tuple[Body, Body]]) -> None:
        """Places what is in a membrane."""
        inside: list[Atom | Membrane] = [*membrane.membranes, *membrane.atoms]
        bodies = [self.bodies[it] for it in inside]
        spread(bodies, pulls)
        relax(bodies, pulls)
        enclose(self.bodies[membrane], bodies)

    def spots(self) -> dict[Atom | Membrane, Body]:
        """The bodies with their middles told from the middle of the root."""
        spots: dict[Atom | Membrane, Body] = {}
        for membrane in self.process.membranes:
            spots[membrane] = self.spot(membrane, spots.get(membrane.parent) if membrane.parent else None)
            for atom in membrane.atoms:
                spots[atom] = self.spot(atom, spots[membrane])
        return spots

    def spot(self, it: Atom | Membrane, outer: Body | None) -> Body:
        own, spot = self.bodies[it], Body(self.bodies[it].radius)
        spot.x, spot.y = own.x + (outer.x if outer else 0), own.y + (outer.y if outer else 0)
        return spot


def walls_of(atom: Atom) -> list[Atom | Membrane]:
    """An atom and the membranes round it, outwards."""
    walls: list[Atom | Membrane] = [atom]
    membrane: Membrane | None = atom.membrane
    while membrane is not None:
        walls.append(membrane)
        membrane = membrane.parent
    return walls


def spread(bodies: list[Body], pulls: list[tuple[Body, Body]]) -> None:
    """Puts bodies along a spiral, linked ones behind each other."""
    step = 2 * max([18.0, *(body.radius * 0.7 for body in bodies)])
    angle = 0.0
    for body in in_turn(bodies, pulls):
        radius = step * angle / (2 * math.pi)
        body.x, body.y = radius * math.cos(angle), radius * math.sin(angle)
        angle += min(1.2, step / max(radius, step / 3))


def in_turn(bodies: list[Body], pulls: list[tuple[Body, Body]]) -> list[Body]:
    """Bodies so that linked ones stand near one another."""
    near: dict[Body, list[Body]] = {body: [] for body in bodies}
    for one, other in pulls:
        near[one].append(other)
        near[other].append(one)
    seen: dict[Body, None] = {}
    for body in bodies:
        todo = [body]
        while todo:
            it = todo.pop()
            if it not in seen:
                seen[it] = None
                todo += near[it]
    return list(seen)


def relax(bodies: list[Body], pulls: list[tuple[Body, Body]]) -> None:
    """Bodies that touch push each other away, links pull, and what is far out is drawn to the middle; at last all that still touches parts."""
    compared, rounds, at = 0, MOST_ROUNDS, 0
    room = math.sqrt(sum((body.radius + GAP) ** 2 for body in bodies))
    while at < rounds:
        step = 0.5 * (1 - at / rounds) + 0.05
        compared += push_all(bodies, step, GAP)
        for one, other in pulls:
            pull(one, other, step)
        for body in bodies:
            gather(body, room, step)
        at += 1
        # Where a round takes long there are fewer, which all the same go over to small steps.
        rounds = min(rounds, max(LEAST_ROUNDS, at, MOST_COMPARED * at // (compared + 1)))
    for _ in range(min(MOST_PARTED, rounds)):
        push_all(bodies, 1.0, LEAST_GAP)


def gather(body: Body, room: float, step: float) -> None:
    """Draws a body to the middle, if it is further out than there must be room."""
    if body.x * body.x + body.y * body.y > room * room:
        body.x *= 1 - 0.05 * step
        body.y *= 1 - 0.05 * step


def push_all(bodies: list[Body], step: float, gap: float) -> int:
    """Pushes all pairs apart between which there is less than a gap, found from left to right; how many were looked at."""
    bodies = sorted(bodies, key=lambda body: body.x - body.radius)
    compared = 0
    for at, one in enumerate(bodies):
        right = one.x + one.radius + gap
        for number in range(at + 1, len(bodies)):
            other = bodies[number]
            if other.x - other.radius > right:
                break
            compared += 1
            push(one, other, step, gap)
    return compared


def push(one: Body, other: Body, step: float, gap: float) -> None:
    """Pushes two bodies apart, if there is less than a gap between them."""
    x, y, wanted = other.x - one.x, other.y - one.y, one.radius + other.radius + gap
    square = x * x + y * y
    if square < wanted * wanted:
        distance = math.sqrt(square) or 0.01
        shift(one, other, x or 0.01, y, step * (wanted - distance) / distance / 2)


def pull(one: Body, other: Body, step: float) -> None:
    """Pulls two bodies together that a link joins."""
    x, y = other.x - one.x, other.y - one.y
    distance = math.hypot(x, y) or 0.01
    shift(one, other, x, y, -step * 0.3 * max(0.0, distance - one.radius - other.radius - LINK) / distance)


def shift(one: Body, other: Body, x: float, y: float, force: float) -> None:
    one.x -= x * force
    one.y -= y * force
    other.x += x * force
    other.y += y * force


def enclose(own: Body, bodies: list[Body]) -> None:
    """Puts the circle of a membrane round its bodies."""
    if not bodies:
        return
    x = (min(it.x - it.radius for it in bodies) + max(it.x + it.radius for it in bodies)) / 2
    y = (min(it.y - it.radius for it in bodies) + max(it.y + it.radius for it in bodies)) / 2
    for body in bodies:
        body.x -= x
        body.y -= y
    own.radius = max(LEAST_MEMBRANE, *(math.hypot(it.x, it.y) + it.radius + PADDING for it in bodies))
