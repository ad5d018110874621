"""The rules of a trace, with numbers in the order in which they are met, and with the names and the words that the text has for them."""
from __future__ import annotations

from typing import TYPE_CHECKING

if TYPE_CHECKING:
    from leskvund.following import Followed


class Rules:
    """The rules of a trace, with numbers in the order in which they are met.

    The rules at the top of the text, each a name or None and how it is written there, are those of the first root.
    """

    def __init__(self, rules_at_top: list[tuple[str | None, str]]) -> None:
        self.texts, self.numbers, self.rules_at_top, self.written = [], {}, rules_at_top, None

    def meet(self, followed: Followed) -> list[int]:
        """The numbers of the rules of a process that weren't met before."""
        if self.written is None:
            root = followed.rules[0]
            agree = len(self.rules_at_top) == len(root) == len(set(root))
            self.written = {number: rule for number, rule in enumerate(self.rules_at_top, 1) if agree and (rule[0] or not rule[1].startswith('('))}
        fresh = []
        for rules in followed.rules.values():
            for text in rules:
                if text not in self.numbers:
                    self.texts.append(text)
                    self.numbers[text] = len(self.texts)
                    fresh.append(len(self.texts))
        return fresh

    def text(self, number: int) -> str:
        """A rule: as the text has it where it stands at the top there, and else as it is printed."""
        return self.written[number][1] if number in self.written else self.texts[number - 1].rstrip()

    def label(self, number: int) -> str:
        """A rule's name, if it has one, and its number."""
        name = self.written[number][0] if number in self.written else None
        return f'{name} (rule {number})' if name else f'rule {number}'
