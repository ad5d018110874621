"""Asks the program for all firings of processes, so that each firing is made by it, and that there is no other is shown by it.

What is asked stands in one text: a copy of a process for each question, in a membrane of its own. In a copy all rules wait for an
atom that isn't there, but for those that are asked about: they wait for one that is there once, so a copy fires once or not at all.
An asked rule makes one atom more, its sign, so what is printed tells which rule fired. The program takes the first rule that can
fire, and of its matches the one whose items stand first in their lists. So

- a copy whose lists begin with the items of a match fires by it,
- a rule without a match stands before the one that fires, and would fire first if it had one; or it is asked about alone, and
  the copy doesn't fire,
- an order of the lists in which items that go on no match that was found stand before the ones that do shows that there is no
  match with them: the program would have taken it.

For this matches are seen as a tree: below the images of the first items of a head are those that the next one has in matches that
begin so. A copy *covers* a place in the tree where each other item of the list in which the next image stands comes before the
image that the program took. All places are covered, by the copies that fire or by more of them. Of items that can be exchanged,
atoms of one name without links and equal membranes that no link leaves, the first is taken for all: exchanging them changes nothing.

What the program will print is foretold letter by letter, and must be what it prints. Two matches mustn't be printed alike. So a
fence, an atom that no rule asks for, stands where atoms that go and atoms that stay are neighbours: between two fences nothing may be
left, which tells that just these went. Matches that take the same items, each in another place of the head, may still be printed
alike; of these each must have been found where one was, which is asked of the matcher once more, among these items alone.
"""
from __future__ import annotations

from collections.abc import Iterable, Iterator
from typing import TYPE_CHECKING, Any

from leskvund.firing import AS_THEY_STAND, Firing, Orders
from leskvund.labels import Layout
from leskvund.matching import first_match, matches, matches_within
from leskvund.program import Unshowable
from leskvund.regions import Atom, line_of

if TYPE_CHECKING:
    from leskvund.firing import Made
    from leskvund.labels import Functor, Label
    from leskvund.matching import Match
    from leskvund.patterns import Rule, Rules
    from leskvund.regions import Region

    # For each list, a membrane and the kind of its items, places in a match.
    Places = dict[tuple[Region, str], list[int]]


class Tree:
    """The matches of a rule in a membrane as a tree: for each beginning of the images of one the images that go on.

    `lists` has for each beginning the membrane and the kind of the list in which the next image stands, `going` the items of this
    list that go on, and those that can be exchanged with one.
    """

    def __init__(self, rule: Rule, matches: list[Match]) -> None:
        self.rule, self.matches, self.next, self.lists = rule, matches, {}, {}
        self.places = [(item.level, 'atoms' if item.functor else 'inner') for item in rule.head.items]
        for match in matches:
            images = tuple(match.images)
            for at, image in enumerate(images):
                begun = images[:at]
                if begun in self.next:
                    self.next[begun][image] = None
                else:
                    level, kind = self.places[at]
                    self.next[begun], self.lists[begun] = {image: None}, (match.membranes[level], kind)
        self.going = {begun: self.exchangeable(begun, images) for begun, images in self.next.items()}
        self.whole = {tuple(match.images): match for match in matches}
        self.uncovered = dict.fromkeys(self.next)

    def exchangeable(self, begun: tuple[Any, ...], images: Iterable[Any]) -> set[Any]:
        """The items of a list that are as good as some of them."""
        going = set(images)
        for image in images:
            if image.is_free:
                going.update(self.lists[begun][0].alike(image))
        return going

    def first(self, orders: Orders) -> Match:
        """The match that the program takes in some orders, if these are all."""
        begun = ()
        while begun not in self.whole:
            images = self.next[begun]
            image = next(iter(images))
            if len(images) > 1:
                items = orders.items(*self.lists[begun])
                image = next(it for it in items if it in images)
            begun = (*begun, image)
        return self.whole[begun]

    def covered(self, orders: Orders, match: Match) -> list[tuple[Any, ...]]:
        """The places of the tree that aren't covered yet and are where the program takes a match in some orders."""
        images = tuple(match.images)
        return [images[:at] for at, image in enumerate(images) if images[:at] in self.uncovered and self.covers(orders, images[:at], image)]

    def covers(self, orders: Orders, begun: tuple[Any, ...], image: Any) -> bool:
        """Whether all items but those that go on stand before an image."""
        region, kind = self.lists[begun]
        items = orders.items(region, kind)
        behind = set(items[items.index(image) + 1:])
        behind.difference_update(self.next[begun], begun)
        return not any(self.is_next(region, begun, it) for it in behind)

    def is_next(self, region: Region, begun: tuple[Any, ...], item: Any) -> bool:
        """Whether an item is the first that is left of those that can be exchanged with it."""
        return next((it for it in region.alike(item) if it not in begun), None) is item

    def best_orders(self, match: Match) -> tuple[Orders, list[tuple[Any, ...]]]:
        """Orders in which a match is the first of all, by which most places are covered that aren't yet, and these places."""
        images, places = tuple(match.images), self.places_of(match.membranes)
        wanted = sum(images[:at] in self.uncovered for at in range(len(images)))
        is_open = () in self.uncovered
        best = None
        for in_turn in (not is_open, is_open):
            orders = self.orders_for(match, places, in_turn)
            if self.first(orders) is match:
                covered = self.covered(orders, match) if wanted else []
                if best is None or len(covered) > len(best[1]):
                    best = orders, covered
                if len(covered) == wanted:
                    return best
        if best is None:
            orders = orders_with(self.rule, match)
            best = orders, self.covered(orders, match)
        return best

    def orders_for(self, match: Match, places: Places, in_turn: bool) -> Orders:
        """Orders in which a match is the first of all, and all others that can do so stand before its items.

        An item of the match stands as far in front as it can, or `in_turn` behind those of earlier items of the head.
        """
        orders = Orders()
        for (region, kind), numbers in places.items():
            own, going = [], []
            for number in numbers:
                image = match.images[number]
                at = len(own) if in_turn else self.place_for(image, going)
                own.insert(at, image)
                going.insert(at, self.going[tuple(match.images[:number])])
            orders.put(region, kind, self.arranged(region, kind, own, going))
        return orders

    def arranged(self, region: Region, kind: str, own: list[Any], going: list[set[Any]]) -> list[Any]:
        """A list in which each other item stands as far in front as it can: behind all in whose place it would go on."""
        mine = set(own)
        rest = [it for it in getattr(region, kind) if it not in mine]
        parts = []
        for image, goes_on in zip(reversed(own), reversed(going)):
            if mine >= goes_on:
                parts += [(), (image,)]
            else:
                parts += [[it for it in rest if it in goes_on], (image,)]
                rest = [it for it in rest if it not in goes_on]
        items = rest
        for part in reversed(parts):
            items += part
        return in_line(region, items)

    def place_for(self, item: Any, going: list[set[Any]]) -> int:
        """The first place for an item behind all images in whose place it would go on."""
        return max((at + 1 for at, goes_on in enumerate(going) if item in goes_on), default=0)

    def places_of(self, membranes: list[Region]) -> Places:
        """For each list in which images of a match stand, their places in the match."""
        places = {}
        for at, (level, kind) in enumerate(self.places):
            places.setdefault((membranes[level], kind), []).append(at)
        return places

    def orders_that_cover(self, begun: tuple[Any, ...]) -> Orders:
        """Orders in which a beginning comes first, and then what doesn't go on from it."""
        orders = Orders()
        firsts, last = {}, self.lists[begun]
        for at in range(len(begun)):
            firsts.setdefault(self.lists[begun[:at]], []).append(begun[at])
        for region, kind in {**firsts, last: None}:
            own, goes_on = firsts.get((region, kind), []), self.going[begun] if (region, kind) == last else ()
            rest = [it for it in getattr(region, kind) if it not in own]
            orders.put(region, kind, in_line(region, own + [it for it in rest if it not in goes_on] + [it for it in rest if it in goes_on]))
        return orders

    def orders(self) -> Iterator[tuple[Orders, Match]]:
        """Orders, and the match that the program takes in them, until each match is taken and each place covered."""
        for match in self.matches:
            orders, covered = self.best_orders(match)
            self.cover(covered)
            yield orders, match
        while self.uncovered:
            begun = next(iter(self.uncovered))
            orders = self.orders_that_cover(begun)
            match = self.first(orders)
            self.cover(self.covered(orders, match))
            if begun in self.uncovered:
                raise AssertionError('a place in the tree of matches is not covered')
            yield orders, match

    def cover(self, places: list[tuple[Any, ...]]) -> None:
        """Notes that places of the tree are covered."""
        for begun in places:
            del self.uncovered[begun]


def orders_of(rule: Rule, matches: list[Match]) -> Iterable[tuple[Orders, Match]]:
    """Orders, and the match that the program takes in them, by which each match is taken and each place of their tree covered."""
    if any([image.is_free for match in matches for image in match.images]):
        return Tree(rule, matches).orders()
    if len(matches) == 1:
        return [(orders_of_only(rule, matches[0]), matches[0])]
    firsts = {match.images[0]: None for match in matches}
    if rule.head.is_flat and len(firsts) == len(matches):
        return orders_of_chains(matches, firsts)
    return Tree(rule, matches).orders()


def orders_with(rule: Rule, match: Match) -> Orders:
    """Orders that begin with the items of a match, so that the program takes it."""
    orders, lists = Orders(), {}
    for item, image in zip(rule.head.items, match.images):
        lists.setdefault((match.membranes[item.level], 'atoms' if item.functor else 'inner'), []).append(image)
    for (region, kind), images in lists.items():
        mine = set(images)
        orders.put(region, kind, in_line(region, images + [it for it in getattr(region, kind) if it not in mine]))
    return orders


def orders_of_only(rule: Rule, match: Match) -> Orders:
    """Orders for a rule's only match, whose items stand behind all others, each behind those of later items of the head.

    Behind an image only images of earlier items stand in its list, so all places are covered.
    """
    orders, lists = Orders(), {}
    for item, image in zip(rule.head.items, match.images):
        lists.setdefault((match.membranes[item.level], 'atoms' if item.functor else 'inner'), []).append(image)
    for (region, kind), images in lists.items():
        orders.put(region, kind, [it for it in getattr(region, kind) if it not in images] + images[::-1])
    return orders


def orders_of_chains(matches: list[Match], firsts: dict[Any, None]) -> Iterator[tuple[Orders, Match]]:
    """Orders for matches in one list of atoms, each of which begins with another image.

    So only the first image leaves a choice. An order for a match has the images of later items of the head behind all others, each
    behind those of still later ones: it covers the places behind the first image. An order in which only first images stand behind
    the one that is taken covers the place before.
    """
    region = matches[0].membranes[0]
    plain = [it for it in region.atoms if it not in firsts]
    for match in matches:
        first, *others = match.images
        items = [it for it in plain if it not in others] if others else list(plain)
        items.append(first)
        items += [it for it in firsts if it is not first and it not in others]
        yield order_of(region, items + others[::-1]), match
    if others:
        yield order_of(region, [*plain, *firsts]), matches[0]


def order_of(region: Region, atoms: list[Atom]) -> Orders:
    """Orders in which the atoms of one membrane stand so."""
    orders = Orders()
    orders.atoms[region] = atoms
    return orders


def in_line(region: Region, items: list[Any]) -> list[Any]:
    """A list with the items that can be exchanged in the order that they had."""
    if sum([it.is_free for it in items]) < 2:
        return items
    left = {}
    groups = [region.alike(it) for it in items]
    return [next(left.setdefault(group[0], iter(group))) for group in groups]


def fenced(orders: Orders, region: Region, gone: set[Any], fence: Label) -> Orders:
    """Orders in which fences stand between the atoms of a membrane that go and those that stay.

    A firing leaves nothing between two fences where it takes all that stands there. So what is printed tells which atoms went, where
    some of their functor stay.
    """
    counts: dict[Functor, int] = {}
    for it in gone:
        if type(it) is Atom and it.links and it.home is region:
            counts[it.functor] = counts.get(it.functor, 0) + 1
    behind = {functor for functor, count in counts.items() if len(region.with_functor(functor)) > count}
    if not behind:
        return orders
    items, last = [], None
    for atom in orders.items(region, 'atoms'):
        goes = atom in gone and atom.functor in behind
        if goes is not last and last is not None:
            items.append(fence)
        items.append(atom)
        last = goes
    fenced = Orders()
    fenced.atoms, fenced.inner = {**orders.atoms, region: items}, orders.inner
    return fenced


def check_permuted(rule: Rule, region: Region, found: list[Match]) -> None:
    """Checks that with a match each other one is found that takes the same items; what is printed may not tell the two apart."""
    by_items: dict[frozenset[Any], set[tuple[Any, ...]]] = {}
    for match in found:
        by_items.setdefault(frozenset(match.taken()), set()).add(tuple(match.images))
    for items, images in by_items.items():
        if {tuple(match.images) for match in matches_within(rule, region, items) if match.taken() == items} != images:
            raise Unshowable(f'a match of {rule.text} was passed over in {line_of(region)}', 70)


class Question:
    """A copy of a process with its rules asked about.

    `armed` are the rules that can fire in it, by their membranes; `firing` is what is foretold, None where there is none; `is_step`
    says whether it is one by a rule of the process.
    """
    __slots__ = ('root', 'family', 'armed', 'orders', 'firing', 'is_step', 'special')

    def __init__(self, root: Region, family: Rules, armed: dict[Region, list[Rule]], orders: Orders = AS_THEY_STAND, firing: Firing | None = None, is_step: bool = False) -> None:
        self.root, self.family, self.armed, self.orders, self.firing, self.is_step = root, family, armed, orders, firing, is_step
        self.special = {each for region in (*armed, *orders.atoms, *orders.inner) for each in (region, *region.above())} if root.inner else None

    def letters(self) -> int:
        """About how long the copy is as it stands in the text."""
        return self.root.layout.letters() + sum([len(rule.armed) for armed in self.armed.values() for rule in armed])

    def put_fences(self) -> None:
        """Puts fences into the copy. It is done once, before the copy is written down."""
        if self.firing is not None:
            self.orders = fenced(self.orders, self.firing.match.membranes[0], self.firing.gone, self.family.fence)

    def asked(self) -> str:
        """The copy as it stands in the text, with the mark of the family before each number of a link."""
        return self.text_of(self.root, False)

    def text_of(self, region: Region, is_below: bool) -> str:
        """The text of a membrane of the copy; `is_below` where a membrane round it is asked about, so that its rules count."""
        if self.special is not None and region not in self.special:
            return region.layout.text(is_below)
        armed = self.armed.get(region)
        parts = [it.text for it in self.orders.atoms.get(region) or region.atoms]
        if armed is not None:
            parts.insert(0, self.family.go)
        for inner in self.orders.inner.get(region) or region.inner:
            parts.append(self.text_of(inner, is_below or armed is not None))
        parts += [rule.quiet for rule in region.rules if is_below] if armed is None else [rule.armed for rule in armed]
        return '{' + ', '.join(parts) + '}'

    def wanted(self) -> tuple[str, list[int]]:
        """The copy as a form and the links in it, as it is to be printed."""
        links = []
        if self.firing is None:
            return self.form_of(self.root, False, links), links
        return self.form_of_next(self.firing.top, False, links), links

    def form_of(self, region: Region, is_below: bool, links: list[int]) -> str:
        """The form of a membrane of the copy as it stands."""
        if self.special is not None and region not in self.special:
            form, more = region.layout.form(is_below)
            links += more
            return form
        armed = self.armed.get(region)
        atoms = self.orders.atoms.get(region) or region.atoms
        parts = [it.form for it in atoms] if armed is None else [self.family.go, *[it.form for it in atoms]]
        for atom in atoms:
            links += atom.links
        for inner in self.orders.inner.get(region) or region.inner:
            parts.append(self.form_of(inner, is_below or armed is not None, links))
        parts += self.rules_of(armed, region.rules if is_below else ())
        return '{' + ', '.join(parts) + '}'

    def rules_of(self, armed: list[Rule] | None, others: Iterable[Rule]) -> list[str]:
        """The texts of the rules of a membrane."""
        return [rule.quiet_form for rule in others] if armed is None else [rule.armed_form for rule in armed]

    def form_of_next(self, made: Made | Layout, is_below: bool, links: list[int]) -> str:
        """The form of a membrane after the firing."""
        if isinstance(made, Layout):
            form, more = made.form(is_below)
            links += more
            return form
        armed, firing = self.armed.get(made.region), self.firing
        kept, new = firing.atoms_of(made.atoms[:1], self.orders), firing.atoms_of(made.atoms[1:], self.orders)
        parts = [it.form for it in kept]
        if armed is not None:
            parts.append(firing.rule.sign)
        parts += [it.form for it in new]
        for atom in kept:
            links += atom.links
        for atom in new:
            links += atom.links
        inner = firing.membranes_of(made.inner, self.orders)
        for each in inner:
            parts.append(self.form_of_next(each, is_below or armed is not None, links))
        parts += self.rules_of(armed, made.rules if is_below else ())
        if armed is not None:
            parts += [rule.quiet_form for rule in made.added]
        return '{' + ', '.join(parts) + '}'


class Questions:
    """All questions about a process.

    `others` are rules that are asked about beside its own, at the root or `anywhere`; `hits` are those that can fire.
    """

    def __init__(self, root: Region, family: Rules, others: Iterable[Rule] = (), anywhere: bool = False) -> None:
        self.root, self.family, self.others, self.anywhere, self.hits, self.silent = root, family, others, anywhere, set(), {}

    def __iter__(self) -> Iterator[Question]:
        for region in self.root.below():
            yield from self.about(region)
        for armed in self.silent.values():
            yield Question(self.root, self.family, armed)

    def about(self, region: Region) -> Iterator[Question]:
        """The questions about the rules of a membrane. Those without a match come before the first that fires."""
        found = {rule: matches(rule, region) for rule in dict.fromkeys(region.rules)}
        others = {rule: first_match(rule, region) for rule in self.others} if self.anywhere or region is self.root else {}
        self.hits.update([rule for rule, match in others.items() if match])
        without = [rule for rule, each in (*found.items(), *others.items()) if not each]
        for rule, each in found.items():
            firings = {}
            if rule.may_permute:
                check_permuted(rule, region, each)
            for orders, match in orders_of(rule, each) if each else ():
                is_step = match not in firings
                if is_step:
                    firings[match] = Firing(self.root, rule, match)
                yield Question(self.root, self.family, {region: [*without, rule]}, orders, firings[match], is_step)
                without = []
        for rule, match in others.items():
            if match:
                yield Question(self.root, self.family, {region: [*without, rule]}, AS_THEY_STAND, Firing(self.root, rule, match))
                without = []
        if without:
            self.silent.setdefault(region.depth(), {})[region] = without
