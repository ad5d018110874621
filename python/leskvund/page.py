"""A trace as one page that needs nothing from elsewhere: the first process whole, then what each firing changed."""
import json
import os
from collections import Counter

from leskvund.following import Follower
from leskvund.following_rules import RuleFollower
from leskvund.rules import Rules

HERE = os.path.dirname(os.path.realpath(__file__))


class Trace:
    """The trace as the page has it. Atoms, membranes and rules are numbers; a name stands once, in `names`."""

    def __init__(self, rules_at_top, choose):
        self.names, self.numbers, self.firings, self.end, self.counts = [], {}, [], '', None
        self.rules, self.follower, self.before = Rules(rules_at_top), Follower(), None
        self.most_items, self.fired = 0, RuleFollower(choose)

    def add(self, process, plain):
        """Adds the next process, which the plain form of the same run has too; of folded lines alone no rule is told."""
        after = self.follower.follow(process)
        self.most_items = max(self.most_items, len(after.items) + len(after.parents))
        self.rules.meet(after)
        if plain.is_folded:
            self.fired = None
        fired = self.fired.follow(plain.line) if self.fired else []
        before = self.before
        change = {
            'gone': [it for it in before.order if it not in after.items] if before else [],
            'membranesGone': [it for it in before.parents if it not in after.parents] if before else [],
            'membranes': [[it, -1 if up is None else up] for it, up in after.parents.items() if not before or before.parents.get(it, it) != up],
            'atoms': [[it, after.homes[it], self.number_of(after.items[it])] for it in after.order if not before or it not in before.items],
            'moved': [[it, after.homes[it]] for it in after.order if before and before.homes.get(it, after.homes[it]) != after.homes[it]],
            'links': self.links_changed(before, after),
            'rules': [[it, [self.rules.numbers[text] - 1 for text in texts]] for it, texts in after.rules.items() if not before or before.rules.get(it) != texts],
        }
        if process.is_folded and not plain.is_folded:
            counts = Counter(self.number_of(item) for membrane in plain.membranes for item in membrane.items)
            if counts != self.counts:
                change['counts'] = [list(pair) for pair in counts.most_common()]
                self.counts = counts
        change['by'] = [self.rules.numbers[text] - 1 for text in fired if text in self.rules.numbers]
        self.firings.append({key: it for key, it in change.items() if it})
        self.before = after

    def number_of(self, item):
        """The number of an item's name with how many links it has."""
        name = (item.name, len(item.links))
        if name not in self.numbers:
            self.numbers[name] = len(self.names)
            self.names.append(name)
        return self.numbers[name]

    @staticmethod
    def links_changed(before, after):
        """Each link with its two ends that isn't as it was: an item and its port, twice."""
        old, new = ends_of(before) if before else {}, ends_of(after)
        return [[*ends[0], *ends[1]] for link, ends in new.items() if old.get(link) != ends]

    def data(self):
        """What the page gets."""
        numbers = range(1, len(self.rules.texts) + 1)
        rules, labels = list(map(self.rules.text, numbers)), list(map(self.rules.label, numbers))
        return {'names': self.names, 'rules': rules, 'labels': labels, 'firings': self.firings, 'end': self.end}


def ends_of(followed):
    """Of each link the items and ports at its ends."""
    ends = {}
    for item in followed.order:
        for port, link in enumerate(followed.joined[item]):
            ends.setdefault(link, []).append((item, port))
    return {link: sorted(pair) for link, pair in ends.items()}


def part(name):
    with open(os.path.join(HERE, name), encoding='utf-8') as file:
        return file.read()


def page_of(title, trace):
    """The text of the page."""
    data = json.dumps(trace.data(), separators=(',', ':'), ensure_ascii=False).replace('<', '\\u003c')
    title = title.replace('&', '&amp;').replace('<', '&lt;')
    parts = {'TITLE': title, 'STYLE': part('page.css'), 'SCRIPT': part('page.js'), 'TRACE': data}
    text = part('page.html')
    for mark, inner in parts.items():
        text = text.replace(f'[[{mark}]]', inner, 1)
    return text
