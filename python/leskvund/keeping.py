"""Which items of a membrane stayed in a firing, told from its list before and after.

A firing takes items out of the list and puts what it makes at the end; of the others the order stays. So the longest beginning
of the list after it that is left of the list before it is what stayed. Where items of one functor could each be the one that
went, those are taken that leave the most links as they were.
"""
import difflib
from collections import Counter

# How many ways to take items out of a list go on side by side, and for how many items that is asked.
WAYS = 3
MOST_GONE = 24


class Listed:
    """The items of a membrane: their functors, and for each port where in this list its link leads, or None."""

    def __init__(self, items, partners, first):
        self.functors = [item.functor for item in items]
        self.partners, self.first = partners, first

    def ends(self):
        """Of each item, port by port, the place and the port at the other end of the link, or None where that is elsewhere."""
        first, behind = self.first, self.first + len(self.functors)
        return [[(end[0] - first, end[1]) if end and first <= end[0] < behind else None for end in self.partners[at]] for at in range(first, behind)]


def pairs_from_left(functors, wanted):
    """Pairs the longest beginning of the second list that is left of the first, each item with the first one that can be it."""
    pairs, at = [], 0
    for place, functor in enumerate(wanted):
        while at < len(functors) and functors[at] != functor:
            at += 1
        if at == len(functors):
            break
        pairs.append((at, place))
        at += 1
    return pairs


def pairs_of_blocks(functors, wanted):
    """Pairs of two lists in order, anywhere in them."""
    blocks = difflib.SequenceMatcher(None, functors, wanted, False).get_matching_blocks()
    return [(one + it, other + it) for one, other, size in blocks for it in range(size)]


def kept_items(old, new):
    """Pairs of places in two lists: what stayed."""
    pairs = pairs_from_left(old.functors, new.functors)
    gone = Counter(old.functors) - Counter(new.functors[:len(pairs)])
    if not gone or sum(gone.values()) > MOST_GONE:
        return pairs
    return Ways(old, new, len(pairs), gone).best()


class Ways:
    """The ways to take out of a list as many items of each functor as are gone, so that the beginning of another one is left.

    A way is a score and the places that are taken out so far. Of those with as many places the best few go on.
    """

    def __init__(self, old, new, kept, gone):
        self.old, self.functors, self.kept, self.gone = old.ends(), old.functors, kept, gone
        self.new, self.wanted = new.ends(), new.functors
        self.ways = {0: [(0, ())]}

    def best(self):
        """The pairs of the best way."""
        for place in range(self.kept + 1):
            self.take_out(place)
            if place < self.kept:
                self.keep(place)
        out = set(self.ways[sum(self.gone.values())][0][1])
        return list(zip((at for at in range(len(self.functors)) if at not in out), range(self.kept)))

    def take_out(self, place):
        """Each way may also take out the items that come next, before the one that stands at a place of the new list."""
        for count in range(sum(self.gone.values())):
            at = place + count
            if count in self.ways and at < len(self.functors) and self.functors[at] in self.gone:
                longer = [(score, (*out, at)) for score, out in self.ways[count] if self.may_go(at, out)]
                if longer:
                    others = self.ways.get(count + 1, [])
                    self.ways[count + 1] = sorted(longer + others, key=lambda way: -way[0])[:WAYS]

    def may_go(self, at, out):
        """Whether one more item of this functor may be taken out."""
        return sum(self.functors[it] == self.functors[at] for it in out) < self.gone[self.functors[at]]

    def keep(self, place):
        """Each way takes its next item for the one at a place of the new list, if it can."""
        self.ways = {
            count: ways for count, ways in self.ways.items() if place + count < len(self.functors) and self.functors[place + count] == self.wanted[place]
        }
        if sum(map(len, self.ways.values())) > 1:
            self.ways = {count: [(score + self.links_kept(place, place + count, out), out) for score, out in ways] for count, ways in self.ways.items()}

    def links_kept(self, place, at, out):
        """How well the links of the item at a place are those of one of the old list.

        A link to an item that comes later must lead to one of the same functor; one to an item before it, to the same item.
        """
        score = 0
        for now, was in zip(self.new[place], self.old[at]):
            stays = now is not None and now[0] < self.kept
            if stays and now[0] >= place:
                score -= was is None or was[1] != now[1] or self.functors[was[0]] != self.wanted[now[0]]
            elif stays or was is not None and was[0] < at and was[0] not in out:
                same = stays and was is not None and now[1] == was[1] and was[0] < at and now[0] == was[0] - sum(it < was[0] for it in out)
                score += 1 if same else -1
        return score
