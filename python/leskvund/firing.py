"""What a firing makes of a process, in any order of its lists, so that a printed line can be foretold."""
from __future__ import annotations

from collections.abc import Hashable, Iterable
from typing import TYPE_CHECKING, Any

from leskvund.labels import Layout, content_of
from leskvund.regions import links_of

if TYPE_CHECKING:
    from leskvund.labels import Label
    from leskvund.matching import Match
    from leskvund.patterns import Level, Rule
    from leskvund.regions import Region


class Orders:
    """The orders of lists in which a process is copied: of some membranes the atoms, or the membranes in them."""
    __slots__ = ('atoms', 'inner')

    def __init__(self) -> None:
        self.atoms, self.inner = {}, {}

    def put(self, region: Region, kind: str, items: list[Any]) -> None:
        getattr(self, kind)[region] = items

    def items(self, region: Region, kind: str) -> list[Any]:
        return getattr(self, kind).get(region) or getattr(region, kind)


AS_THEY_STAND = Orders()


class Made:
    """A membrane that a firing makes or changes.

    Its lists are told piece by piece: a list of what is made, or a pair of a membrane whose items stay and the links that replace
    theirs in a copy (None where they are the items themselves). `region` is what it was, None where it is a new one, `added` are the
    rules that the firing makes or brings.
    """
    __slots__ = ('region', 'atoms', 'inner', 'rules', 'added')

    def __init__(self, region: Region | None = None) -> None:
        self.region = region
        self.atoms = [(region, None)] if region else []
        self.inner = [(region, None)] if region else []
        self.rules, self.added = region.rules if region else [], []


class Firing:
    """A firing of a rule by a match. `gone` are the atoms and membranes that go, `changed` what becomes of membranes that stay."""

    def __init__(self, root: Region, rule: Rule, match: Match) -> None:
        self.root, self.rule, self.match, self.known = root, rule, match, rule.family.labels
        self.gone = match.taken()
        atoms = match.atoms
        self.links = {link: atoms[atom].links[port] for link, atom, port in rule.entries}
        for made, gone in rule.reused:
            self.links[made] = self.links[gone]
        self.same, self.used, self.uses, self.renamed = {}, None, {}, {}
        if rule.connectors:
            self.unite_links()
        self.rests, self.contexts = {}, {}
        for level, region in zip(rule.head.levels[1:], match.membranes[1:]):
            self.rests.update([(name, region) for name, _ in level.rests])
            self.contexts.update([(name, region.rules) for name in level.rule_contexts])
        home = match.membranes[0]
        self.top = Made(home)
        self.changed = {home: self.top}
        self.make(rule.body, self.top)
        if home is not root or self.renamed:
            self.change_round([home, *[atom.home for atom in self.renamed]])

    def change_round(self, regions: Iterable[Region]) -> None:
        """Membranes that stay are other ones, and those round them."""
        for region in regions:
            for each in (region, *region.above()):
                if each not in self.changed:
                    self.changed[each] = Made(each)
        self.top = self.changed[self.root]

    def origin(self) -> Hashable:
        """By what the links that this firing makes are told from those of others."""
        return self.rule.number, tuple([atom.number for atom in self.match.atoms])

    def fresh(self, *why: Hashable) -> int:
        """A new link."""
        if self.used is None:
            self.used = links_of(self.root)
        return self.known.fresh((self.origin(), why), self.used)

    def link(self, name: str) -> int:
        """The link of the process that a link of the rule is."""
        if name not in self.links:
            self.links[name] = self.fresh(name)
        return self.one_of(self.links[name])

    def one_of(self, link: int) -> int:
        """The link that stands for all that connectors made one with this one."""
        while link in self.same:
            link = self.same[link]
        return link

    def unite_links(self) -> None:
        """Makes links one that connectors of the body join, also where they stand in atoms that stay."""
        for one, other in self.rule.connectors:
            one, other = self.link(one), self.link(other)
            if one != other:
                self.same[max(one, other)] = min(one, other)
        if self.same:
            for region in self.root.below():
                for atom in region.atoms:
                    if atom not in self.gone and not self.same.keys().isdisjoint(atom.links):
                        self.renamed[atom] = self.known.label(atom.functor, tuple(map(self.one_of, atom.links)))

    def make(self, level: Level, made: Made) -> None:
        """Makes what a level of the body says, at the ends of the lists of a membrane."""
        labels = []
        for leaf in level.leaves:
            if leaf[0] == 'atom':
                labels.append(self.known.label(leaf[1], tuple(map(self.link, leaf[2]))))
            elif leaf[0] == 'typed':
                labels += self.typed(leaf[1], self.link(leaf[2]))
        made.atoms.append(labels)
        if level.membranes or level.rests:
            self.make_inner(level, made)
        if level.rules or level.rule_contexts:
            made.added = self.rule.made_rules[level] + [rule for name in level.rule_contexts for rule in self.contexts[name]]
            made.rules = made.rules + made.added

    def make_inner(self, level: Level, made: Made) -> None:
        """Makes the membranes of a level of the body, and puts what its contexts stand for at the ends of the lists."""
        for inner in level.membranes:
            new = Made()
            made.inner.append([new])
            self.make(inner, new)
        for name, _ in level.rests:
            piece = self.rests[name], self.fresh_links(name)
            made.atoms.append(piece)
            made.inner.append(piece)

    def use(self, name: str) -> int:
        """How often a context was used before."""
        self.uses[name] = self.uses.get(name, -1) + 1
        return self.uses[name]

    def typed(self, name: str, link: int) -> list[Label]:
        """The labels of a part, which is moved or copied, or of the integer that the guard bound."""
        if name not in self.match.parts:
            return [self.known.label((str(self.match.values[name]), 1), (link,))]
        part, use = self.match.parts[name], self.use(name)
        holder, port = self.rule.holders[name]
        held = self.match.atoms[holder].links[port]
        if not use and held == link:
            return [atom.label for atom in part]
        new = {held: link} if not use else {each: self.fresh(name, use, each) for atom in part for each in atom.links}
        new[held] = link
        return [self.known.label(atom.functor, tuple([new.get(each, each) for each in atom.links])) for atom in part]

    def fresh_links(self, name: str) -> dict[int, int] | None:
        """Links for a copy of what a closed context stands for; None where it is used for the first time, so that it is moved."""
        use = self.use(name)
        if not use:
            return None
        region = self.rests[name]
        links = [link for atom in region.atoms if atom not in self.gone for link in atom.links]
        links += [link for inner in region.inner if inner not in self.gone for link in links_of(inner)]
        return {link: self.fresh(name, use, link) for link in links}

    def lists(self, made: Made, orders: Orders) -> tuple[list[Any], list[Made | Layout]]:
        """The atoms and the membranes of a membrane that is made or changed, where the process stood in some orders."""
        return self.atoms_of(made.atoms, orders), self.membranes_of(made.inner, orders)

    def atoms_of(self, pieces: list[Any], orders: Orders) -> list[Any]:
        atoms: list[Any] = []
        for piece in pieces:
            atoms += piece if type(piece) is list else self.kept_atoms(*piece, orders)
        return atoms

    def membranes_of(self, pieces: list[Any], orders: Orders) -> list[Made | Layout]:
        inner: list[Made | Layout] = []
        for piece in pieces:
            inner += piece if type(piece) is list else self.kept_membranes(*piece, orders)
        return inner

    def kept_atoms(self, region: Region, fresh: dict[int, int] | None, orders: Orders) -> list[Any]:
        gone = self.gone
        kept = [it for it in orders.atoms.get(region) or region.atoms if it not in gone]
        if fresh is not None:
            return [self.relinked(it, fresh) for it in kept]
        return [self.renamed.get(it, it) for it in kept] if self.renamed else kept

    def kept_membranes(self, region: Region, fresh: dict[int, int] | None, orders: Orders) -> list[Made | Layout]:
        if not region.inner:
            return []
        kept = [it for it in orders.inner.get(region) or region.inner if it not in self.gone]
        if fresh is not None:
            return [self.copy_of(it.layout, fresh) for it in kept]
        return [self.changed.get(it) or it.layout for it in kept]

    def relinked(self, label: Any, new: dict[int, int]) -> Label:
        return self.known.label(label.functor, tuple([new[link] for link in label.links]))

    def copy_of(self, layout: Layout, new: dict[int, int]) -> Layout:
        """A copy of a membrane with other links."""
        return Layout([self.relinked(it, new) for it in layout.labels], [self.copy_of(it, new) for it in layout.inner], layout.rules)

    def number(self) -> int:
        """The number of the next process, the same where only the order of lists differs."""
        return self.number_of(self.top)

    def number_of(self, made: Made | Layout) -> int:
        if isinstance(made, Layout):
            return made.number(self.known)
        atoms, inner = self.lists(made, AS_THEY_STAND)
        return self.known.layout_number(content_of([it.number for it in atoms], [self.number_of(it) for it in inner] if inner else [], made.rules))

    def layout(self) -> Layout:
        """The next process."""
        return self.layout_of(self.top)

    def layout_of(self, made: Made | Layout) -> Layout:
        if isinstance(made, Layout):
            return made
        atoms, inner = self.lists(made, AS_THEY_STAND)
        return Layout([it.label for it in atoms], [self.layout_of(it) for it in inner], made.rules)
