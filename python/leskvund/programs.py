"""A program: a text in LMNtal, and what can be asked about it."""
from __future__ import annotations

import os
from collections.abc import Mapping, Sequence
from functools import cached_property

from leskvund.calling import ENCODING, ERRORS, Said, call, output_of
from leskvund.errors import NoWeights, ProgramFailed, error_of
from leskvund.patterns import Rules
from leskvund.processes import Functor, Process, Rule
from leskvund.reachability import ReachabilityGraph, reached
from leskvund.regions import all_rules, region_of_line
from leskvund.runs import Ending, Order, Run, Trace, end_of, named
from leskvund.texts import rules_at_top
from leskvund.weights import Unweighable, weights_for

MOST_64 = 2 ** 63 - 1
MOST_ITEMS = 2 ** 32 - 1
MOST_WEIGHT = 1_000_000
BUDGET, SIZE = 1_000_000, 16_777_216
TRACED, EXPLORED = 10_000, 10_000


class Program:
    """A text in LMNtal. It is loaded by the program each time that something is asked of it; a text that is refused raises `Refused`."""

    def __init__(self, text: str) -> None:
        self.text = text

    @classmethod
    def from_file(cls, path: str | os.PathLike[str]) -> Program:
        """The program of a file. Bytes that aren't UTF-8, which may stand in comments and quotes, stay as they are."""
        with open(path, encoding=ENCODING, errors=ERRORS, newline='') as file:
            return cls(file.read())

    def __repr__(self) -> str:
        lines = self.text.count('\n') + (not self.text.endswith('\n'))
        return f'<program of {lines} line{"" if lines == 1 else "s"}>'

    def run(self, *, budget: int = BUDGET, order: Order | str | None = None, seed: int | None = None, size: int = SIZE,
            folded: bool = False, seconds: float | None = None) -> Run:
        """Runs it, and tells the last process and why the run ended.

        At most `budget` rules fire, and at most `size` atoms, membranes and rules in membranes stand at once. `order` says which
        membrane is asked first, and is `seed` where a seed is given. With `folded` the line of the process has terms and lists
        written as such. After `seconds` the run is ended by `TimedOut`.
        """
        options = [*options_of(budget, order, seed, size), *(['--folded'] if folded else [])]
        return run_of(checked(call('run', [self.text], options, seconds)))

    def trace(self, *, budget: int = TRACED, order: Order | str | None = None, seed: int | None = None, size: int = SIZE,
              seconds: float | None = None) -> Trace:
        """All processes of a run, 10,000 firings of it where no budget is given. What is given is as for `run`."""
        said = checked(call('run', [self.text], [*options_of(budget, order, seed, size), '--trace'], seconds))
        return Trace(said.output, order_of(order, seed), seed or 0, rules_at_top(self.text))

    @cached_property
    def first(self) -> Process:
        """The process before any rule has fired."""
        return self.run(budget=0).process

    @cached_property
    def rules(self) -> list[Rule]:
        """The rules at the top, with their names."""
        return named(self.first.rules, rules_at_top(self.text))

    def check(self, trace: Trace | str, *, seconds: float | None = None) -> int:
        """The number of firings of a trace of this program, from any order; `TraceRefused` where it is none."""
        return number_behind('% checked ', output_of('check', [self.text, str(trace)], (), seconds))

    def bound(self, weights: Mapping[str | Functor, int], *, seconds: float | None = None) -> int:
        """The most firings that there can be, whatever is chosen, by weights of functors as `busy/0`, of `int` and of `{}`.

        `WeightsRefused` where a rule isn't lowered by them. Keys are functors as `compile` prints them.
        """
        text = ''.join(f'{functor} {weight}\n' for functor, weight in weights.items())
        return number_behind('% at most ', output_of('bound', [self.text, text], (), seconds))

    def weights(self) -> dict[str, int]:
        """Weights for `bound` by which the bound is least, found exactly; `NoWeights`, with the rules by which it can't be, where there are none."""
        root = region_of_line(self.first.text, Rules(self.first.text))
        labels = {rule.text: str(rule) for rule in self.rules}
        try:
            weights: dict[str, int] = weights_for(all_rules(root), root, lambda rule: labels.get(rule.text, rule.text.strip()))[0]
        except Unweighable as why:
            raise NoWeights(str(why)) from None
        if max(weights.values(), default=0) > MOST_WEIGHT:
            raise NoWeights(f'there are weights, and none that are whole and at most {MOST_WEIGHT} are found')
        return weights

    def compile(self, *, seconds: float | None = None) -> list[list[str]]:
        """The instructions of each rule."""
        rules: list[list[str]] = []
        for line in output_of('compile', [self.text], (), seconds).split('\n')[:-1]:
            if line.startswith('rule '):
                rules.append([])
            else:
                rules[-1].append(line.strip())
        return rules

    def execute(self, listing: Sequence[Sequence[str]], *, seconds: float | None = None) -> Run:
        """Runs it by a listing in place of what it is compiled to, as with no option of `run`; `ListingRefused` where it can't be run."""
        text = ''.join(f'rule {number}\n' + ''.join(f'  {line}\n' for line in rule) for number, rule in enumerate(listing))
        return run_of(checked(call('exec', [text, self.text], (), seconds)))

    def debug(self, script: str, *, seconds: float | None = None) -> list[str]:
        """What is printed for a script, whose lines are `step N`, `back N`, `until F OP N` and `show`; `ScriptRefused` where it is none."""
        return output_of('debug', [self.text, script], (), seconds).split('\n')[:-1]

    def explore(self, *, most: int = EXPLORED, heads: Sequence[str] = (), anywhere: bool = False) -> ReachabilityGraph:
        """All processes that can be reached, about as many as `most` at most, and the firings among them.

        Each of `heads` is a head of the language, maybe with a guard, as `cell($v) :- $v > 3`; `ReachabilityGraph.matching` tells
        in which processes it matches, at the root, or `anywhere`, in membranes too. ^C ends the search; what is known then is told.
        """
        return reached(self.text, most, heads, anywhere)


def checked(said: Said) -> Said:
    """What was said of a run, if it came to an end; else its exception."""
    has_end = said.output.rpartition('\n% ')[2].startswith(Ending.NO_MEMORY.value)
    if said.status not in (0, 1, 7) and not (said.status == 6 and has_end):
        raise error_of(said.status, said.last_words)
    return said


def run_of(said: Said) -> Run:
    """The run whose last process was printed."""
    return Run(Process(said.output.partition('\n')[0]), *end_of(said.output))


def number_behind(mark: str, output: str) -> int:
    """The number that a command printed behind a mark."""
    number = output.strip().removeprefix(mark)
    if not number.isdigit():
        raise ProgramFailed(f'the program printed something else: {output[:200]}')
    return int(number)


def order_of(order: Order | str | None, seed: int | None) -> Order:
    """The order that is meant."""
    return Order(order) if order is not None else Order.FIRST if seed is None else Order.SEED


def in_range(name: str, value: int, least: int, most: int) -> str:
    """A number as the program takes it; ValueError where it is out of its range."""
    if isinstance(value, bool) or not least <= value <= most:
        raise ValueError(f'{name} is {value}, and takes {least} to {most}')
    return str(int(value))


def options_of(budget: int, order: Order | str | None, seed: int | None, size: int) -> list[str]:
    """Options of `run`, but for those that take no value."""
    options = ['--budget', in_range('budget', budget, 0, MOST_64), '--size', in_range('size', size, 1, MOST_ITEMS)]
    options += ['--order', order_of(order, seed).value]
    options += ['--seed', in_range('seed', seed, 0, MOST_64)] if seed is not None else []
    return options
