"""Follows items and membranes from one process of a trace to the next: which stayed, which went, which came, which moved."""
from collections import Counter

from leskvund.keeping import Listed, kept_items, pairs_of_blocks


class Followed:
    """A process whose membranes, items and links have numbers that stay.

    `homes` has the membrane of each item, `items` its text cut at links, `joined` its links; `parents` has the membrane of
    each membrane (None for the root), `rules` its rules. `order` has the items as they are printed.
    """

    def __init__(self):
        self.homes, self.items, self.joined, self.parents, self.rules, self.order = {}, {}, {}, {}, {}, []

    def contents(self):
        """For each membrane its items, in order, and the membranes in it."""
        items, membranes = {it: [] for it in self.parents}, {it: [] for it in self.parents}
        for item in self.order:
            items[self.homes[item]].append(item)
        for membrane, parent in self.parents.items():
            if parent is not None:
                membranes[parent].append(membrane)
        return items, membranes

    def text(self, item):
        return self.items[item].text([f'L{link}' for link in self.joined[item]])


def partners_of(process):
    """Of each item of a process, port by port, the item and the port at the other end of its link."""
    places, partners = {}, [[None] * len(item.links) for item in process.items]
    for number, item in enumerate(process.items):
        for port, link in enumerate(item.links):
            if link in places:
                other, there = places.pop(link)
                partners[number][port], partners[other][there] = (other, there), (number, port)
            else:
                places[link] = (number, port)
    return partners


def firsts_of(process):
    """The number of the first item of each membrane, and behind them the number of items."""
    firsts = [0]
    for membrane in process.membranes:
        firsts.append(firsts[-1] + len(membrane.items))
    return firsts


def contents_of(process):
    """Of each membrane a number that two membranes with equal contents share, links left aside."""
    contents = [None] * len(process.membranes)
    for number in range(len(process.membranes) - 1, -1, -1):
        membrane = process.membranes[number]
        contents[number] = hash((tuple(item.functor for item in membrane.items), tuple(membrane.rules), tuple(contents[it] for it in membrane.membranes)))
    return contents


class Pairing:
    """Which membrane of a process, and which item, is which of the next one."""

    def __init__(self, before, after):
        self.before, self.after = before, after
        self.membranes, self.items = {0: 0}, {}
        self.pair_membranes()
        self.first_before, self.first_after = firsts_of(before), firsts_of(after)
        self.links_before, self.links_after = partners_of(before), partners_of(after)
        for old, new in sorted(self.membranes.items()):
            self.pair_items_of(old, new)
        self.pair_moved_items()

    def pair_membranes(self):
        """Membranes with equal contents first, below one membrane and then anywhere; then those that are most alike."""
        old, new = contents_of(self.before), contents_of(self.after)
        if old == new:
            self.membranes = {number: number for number in range(len(old))}
            return
        todo = [(0, 0)]
        while todo:
            here, there = todo.pop()
            inner = self.before.membranes[here].membranes, self.after.membranes[there].membranes
            todo += self.pair_equal(old, new, *inner)
        rest = self.unpaired_membranes()
        todo = self.pair_equal(old, new, *rest)
        while todo:
            here, there = todo.pop()
            todo += self.pair_equal(old, new, self.before.membranes[here].membranes, self.after.membranes[there].membranes)
        self.pair_alike(*self.unpaired_membranes())

    def unpaired_membranes(self):
        taken = set(self.membranes.values())
        return [it for it in range(len(self.before.membranes)) if it not in self.membranes], [it for it in range(len(self.after.membranes)) if it not in taken]

    def pair_equal(self, old, new, here, there):
        """Pairs the membranes of two lists that have equal contents, in order. The first go, and those that are made come last."""
        taken, before, after = set(self.membranes.values()), {}, {}
        for number in here:
            if number not in self.membranes:
                before.setdefault(old[number], []).append(number)
        for number in there:
            if number not in taken:
                after.setdefault(new[number], []).append(number)
        found = []
        for content, made in after.items():
            kept = before.get(content, [])
            found += zip(kept[max(0, len(kept) - len(made)):], made)
        self.membranes.update(found)
        return found

    def pair_alike(self, here, there):
        """Pairs each membrane with the one that has most in common with it, where there is anything."""
        old = {number: features_of(self.before, number) for number in here}
        new = {number: features_of(self.after, number) for number in there}
        scores = [(sum((old[one] & new[other]).values()) + 2 * self.begin_alike(one, other), -one, -other) for one in here for other in there]
        for score, one, other in sorted(scores, reverse=True):
            if score and -one not in self.membranes and -other in new:
                self.membranes[-one] = -other
                del new[-other]

    def begin_alike(self, one, other):
        """Whether the first items of two membranes have one functor: what tells a membrane from others often stands first."""
        old, new = self.before.membranes[one].items, self.after.membranes[other].items
        return bool(old and new) and old[0].functor == new[0].functor

    def pair_items_of(self, old, new):
        """Pairs the items of two membranes that are one."""
        here, there = self.first_before[old], self.first_after[new]
        before = Listed(self.before.membranes[old].items, self.links_before, here)
        after = Listed(self.after.membranes[new].items, self.links_after, there)
        found = kept_items(before, after)
        # A membrane that was made anew has what was made first, and terms have no order that lasts.
        if old and len(found) < len(after.functors) or self.after.is_folded:
            found = max(found, pairs_of_blocks(before.functors, after.functors), key=len)
        self.items.update((here + one, there + other) for one, other in found)
        if self.after.is_folded:
            self.pair_rest(range(here, here + len(before.functors)), range(there, there + len(after.functors)))

    def pair_rest(self, here, there):
        """Pairs what is left of two lists of items by functors, in order."""
        old, new = self.before.items, self.after.items
        taken, waiting = set(self.items.values()), {}
        for number in here:
            if number not in self.items:
                waiting.setdefault(old[number].functor, []).append(number)
        for number in there:
            if number not in taken and waiting.get(new[number].functor):
                self.items[waiting[new[number].functor].pop(0)] = number

    def pair_moved_items(self):
        """Pairs what is left of membranes that went with what came anywhere, and what is left anywhere with membranes that came."""
        gone, made = self.unpaired_membranes()
        every = range(len(self.before.items)), range(len(self.after.items))
        self.pair_rest([it for number in gone for it in range(self.first_before[number], self.first_before[number + 1])], every[1])
        self.pair_rest(every[0], [it for number in made for it in range(self.first_after[number], self.first_after[number + 1])])


def features_of(process, number):
    """What a membrane has: items by functors, rules, and whether there is a membrane in it."""
    membrane = process.membranes[number]
    inner = Counter(('membrane', item.functor) for it in membrane.membranes for item in process.membranes[it].items)
    return Counter(item.functor for item in membrane.items) + Counter(membrane.rules) + inner


class Follower:
    """Gives numbers that stay to the processes of a trace, one after the other."""

    def __init__(self):
        self.process, self.followed, self.was_folded = None, None, False
        self.membranes, self.items, self.links = 0, 0, 0
        self.numbers_of_membranes, self.numbers_of_items = [], []

    def follow(self, process):
        """The next process of the trace with its numbers."""
        self.was_folded = self.was_folded or process.is_folded
        pairing = Pairing(self.process, process) if self.process else None
        membranes = self.numbers(len(process.membranes), pairing and pairing.membranes, self.numbers_of_membranes, 'membranes')
        items = self.numbers(len(process.items), pairing and pairing.items, self.numbers_of_items, 'items')
        followed = Followed()
        count = 0
        for number, membrane in zip(membranes, process.membranes):
            followed.parents[number] = None if membrane.parent is None else membranes[membrane.parent]
            followed.rules[number] = membrane.rules
            for item in membrane.items:
                followed.homes[items[count]], followed.items[items[count]] = number, item
                count += 1
        followed.order = items
        followed.joined = self.joined(process, items)
        self.process, self.followed = process, followed
        self.numbers_of_membranes, self.numbers_of_items = membranes, items
        return followed

    def numbers(self, count, pairs, before, kind):
        """The number of each membrane or item: that of the one with which it is paired, or a fresh one."""
        numbers = [None] * count
        for old, new in (pairs or {}).items():
            numbers[new] = before[old]
        for at in range(count):
            if numbers[at] is None:
                numbers[at] = getattr(self, kind)
                setattr(self, kind, numbers[at] + 1)
        return numbers

    def joined(self, process, items):
        """The links of each item. A link keeps the number that it had at an item that stayed, if no other has it."""
        kept, taken = {}, set()
        for number, item in zip(items, process.items):
            for port, link in enumerate(item.links):
                before = self.followed.joined.get(number) if self.followed else None
                if before and link not in kept and before[port] not in taken:
                    kept[link] = before[port]
                    taken.add(before[port])
        joined = {}
        for number, item in zip(items, process.items):
            for link in item.links:
                if link not in kept:
                    kept[link], self.links = self.links, self.links + 1
            joined[number] = [kept[link] for link in item.links]
        return joined
