"""Compares explore with the enumeration, and with itself where a match is passed over."""
import os
import random
from unittest import mock

from exploring.enumeration import Enumeration, TooMany
from exploring.programs import Program
from leskvund import asking
from leskvund.exploring import explored, first_line
from leskvund.program import Unshowable

MOST_PROCESSES = 40


def counts_of(found):
    """How many processes, firings and ends there are, and how many processes come after each firing of which rule."""
    return len(found), sum(map(len, found.rules)), len(found.ends)


def counts_of_enumeration(found):
    return len(found.processes), sum(map(len, found.firings)), len(found.ends())


def degrees(firings):
    """For each process how many firings lead from it, in order: the same for two graphs that are one."""
    return sorted(map(len, firings))


class Compared:
    """Random programs: how many were compared, how many were left as too large, and those of which the two say different things."""

    def __init__(self, folder, seed):
        self.file, self.chance, self.compared, self.large, self.wrong = os.path.join(folder, 'random.lmn'), random.Random(seed), 0, 0, []

    def draw(self):
        """The next program that isn't too large and fires, and its enumeration."""
        while True:
            text = Program(self.chance).text()
            with open(self.file, 'w', encoding='utf-8') as file:
                file.write(text)
            try:
                enumeration = Enumeration(first_line([self.file]).rstrip('\n'), MOST_PROCESSES)
            except TooMany:
                self.large += 1
                continue
            if enumeration.firings[0]:
                return text, enumeration

    def compare(self, number):
        """Compares so many programs."""
        while self.compared < number:
            text, enumeration = self.draw()
            self.compared += 1
            try:
                found = explored([self.file], most=MOST_PROCESSES + 1)
            except Unshowable as why:
                self.wrong.append(f'{text}\n{why}')
                continue
            if counts_of(found) != counts_of_enumeration(enumeration) or degrees(found.rules) != degrees(enumeration.firings):
                self.wrong.append(f'{text}\n{counts_of(found)} and not {counts_of_enumeration(enumeration)}')


class Passing:
    """Finds matches as the package does, but passes over some, by its kind.

    `one` passes over a drawn match of a drawn answer, `first` over the first match of each answer, `others` over all but the first,
    `rule` over all of the rule that is asked first.
    """

    KINDS = ('one', 'first', 'others', 'rule')

    def __init__(self, kind, at=0, chance=None):
        self.kind, self.at, self.chance, self.answers, self.several, self.rule = kind, at, chance, 0, 0, None
        self.matches = asking.matches

    def __call__(self, rule, region):
        found = self.matches(rule, region)
        if not found:
            return found
        self.answers += 1
        self.several += len(found) > 1
        return self.left(rule, found)

    def left(self, rule, found):
        """What is left of an answer."""
        if self.kind == 'first':
            return found[1:]
        if self.kind == 'others':
            return found[:1]
        if self.kind == 'rule':
            self.rule = self.rule or rule
            return [] if rule is self.rule else found
        if self.kind == 'one' and self.answers - 1 == self.at:
            left_out = self.chance.randrange(len(found))
            return found[:left_out] + found[left_out + 1:]
        return found


def explore_passing(file, passing):
    with mock.patch.object(asking, 'matches', passing):
        return explored([file])


def is_seen(file, passing):
    """Whether the answers show that a match was passed over."""
    try:
        explore_passing(file, passing)
    except Unshowable:
        return True
    return False


def passed_over(file, times, seed):
    """In how many of so many explorations that pass over a match the answers didn't show it; and of the kinds that pass over several."""
    chance = random.Random(seed)
    counting = Passing(None)
    explore_passing(file, counting)
    plants = [Passing('one', chance.randrange(counting.answers), chance) for _ in range(times)]
    plants += [Passing(kind) for kind in Passing.KINDS[1:] if kind != 'others' or counting.several]
    return sum(not is_seen(file, passing) for passing in plants)


def planted(folder, number, seed):
    """Of so many random programs those in which a match that is passed over isn't seen."""
    programs, unseen = Compared(folder, seed), []
    for at in range(number):
        text, _ = programs.draw()
        if passed_over(programs.file, 1, f'{seed} {at}'):
            unseen.append(text)
    return unseen
