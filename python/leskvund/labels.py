"""A process written down.

Atoms are labels, one object for each functor with links, so that processes share them. A layout is a membrane written down: labels,
layouts and rules in their order. Neither is changed once it is made.
"""
from __future__ import annotations

from collections.abc import Hashable
from typing import TYPE_CHECKING

if TYPE_CHECKING:
    from leskvund.patterns import Rule

Functor = tuple[str, int]
Content = tuple[tuple[int, ...], tuple[int, ...], tuple[int, ...]]

# Links of processes that are read have numbers below this one, those that are made from it on.
FIRST_MADE = 1 << 32


class Label:
    """What an atom is: its functor, a name and a number of links, and its links.

    `form` is its text with `%s` for each link, `text` the one with a mark before the number of each link.
    """
    __slots__ = ('functor', 'links', 'number', 'form', 'text', 'label')

    def __init__(self, functor: Functor, links: tuple[int, ...], number: int, form: str, text: str) -> None:
        self.functor, self.links, self.number, self.form, self.text, self.label = functor, links, number, form, text, self


class Labels:
    """The labels of a search, each once, and the numbers of its layouts and links. `mark` is a letter that stands in no text."""

    def __init__(self, mark: str) -> None:
        self.mark, self.known, self.forms, self.layouts, self.links = mark, {}, {}, {}, {}

    def label(self, functor: Functor, links: tuple[int, ...]) -> Label:
        """The label of a functor with a tuple of links."""
        label = self.known.get((functor, links))
        if label is None:
            form = self.form(functor)
            label = self.known[functor, links] = Label(functor, links, len(self.known), form, form % tuple([f'{self.mark}{link}' for link in links]))
        return label

    def form(self, functor: Functor) -> str:
        """The text of an atom with this functor, `%s` for each link."""
        form = self.forms.get(functor)
        if form is None:
            name, arity = functor
            name = name.replace('%', '%%')
            form = self.forms[functor] = f'{name}({", ".join(["%s"] * arity)})' if arity else name
        return form

    def layout_number(self, content: Content) -> int:
        """The number of what is in a membrane."""
        return self.layouts.setdefault(content, len(self.layouts))

    def fresh(self, origin: Hashable, used: set[int]) -> int:
        """A link that isn't used, the same for the same origin where it can be, so that firings in any order make one process."""
        times = 0
        while True:
            link = self.links.setdefault((origin, times), FIRST_MADE + len(self.links))
            if link not in used:
                used.add(link)
                return link
            times += 1


class Layout:
    """A membrane written down: labels of its atoms, layouts of the membranes in it, rules, each in their order.

    `number` is the same for two layouts exactly where they differ in the order of their lists alone.
    """
    __slots__ = ('labels', 'inner', 'rules', '_number', '_forms', '_texts', '_shape', '_letters')

    def __init__(self, labels: list[Label], inner: list[Layout], rules: list[Rule]) -> None:
        self.labels, self.inner, self.rules, self._number, self._forms, self._texts, self._shape, self._letters = labels, inner, rules, None, {}, {}, None, None

    def number(self, known: Labels) -> int:
        if self._number is None:
            self._number = known.layout_number(content_of([it.number for it in self.labels], [it.number(known) for it in self.inner], self.rules))
        return self._number

    def form(self, with_rules: bool) -> tuple[str, list[int]]:
        """The text as an item with `%s` for each link, and the links; with rules that wait for what isn't there, or without rules."""
        if with_rules not in self._forms:
            inner = [it.form(with_rules) for it in self.inner]
            rules = [rule.quiet_form for rule in self.rules] if with_rules else []
            links = [link for label in self.labels for link in label.links]
            for _, each in inner:
                links += each
            self._forms[with_rules] = '{' + ', '.join([*[it.form for it in self.labels], *[form for form, _ in inner], *rules]) + '}', links
        return self._forms[with_rules]

    def letters(self) -> int:
        """About how long its text is, without rules."""
        if self._letters is None:
            self._letters = sum([len(it.text) + 2 for it in self.labels]) + sum([it.letters() + 4 for it in self.inner])
        return self._letters

    def shape(self) -> Hashable:
        """The text with each link by the place where it stands first: the same for two layouts that differ in the numbers of links alone."""
        if self._shape is None:
            form, links = self.form(True)
            first = {link: place for place, link in reversed(list(enumerate(links)))}
            self._shape = form, tuple([first[link] for link in links])
        return self._shape

    def text(self, with_rules: bool) -> str:
        """The text as an item, a mark before the number of each link, with rules that wait for what isn't there, or without rules."""
        if with_rules not in self._texts:
            inner = [it.text(with_rules) for it in self.inner]
            rules = [rule.quiet for rule in self.rules] if with_rules else []
            self._texts[with_rules] = '{' + ', '.join([*[it.text for it in self.labels], *inner, *rules]) + '}'
        return self._texts[with_rules]


def content_of(labels: list[int], inner: list[int], rules: list[Rule]) -> Content:
    """What is in a membrane whatever the order: numbers of labels, of layouts and of rules."""
    return tuple(sorted(labels)), tuple(sorted(inner)), tuple(sorted([rule.number for rule in rules]))
