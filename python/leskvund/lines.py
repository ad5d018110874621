"""Reads the lines that `lmn run` prints, in the plain or the folded form."""
import re

NAME = r"(?:'(?:[^']|'')*'|-?\d+|[a-z]\w*)"
PLAIN_ATOM = re.compile(rf'({NAME})(?:\((L\d+(?:, L\d+)*)\))?(?=[.,}}]|$)')
PLAIN_BEGINNING = re.compile(rf'{NAME}\(')
QUOTED_OR_BRACKET = re.compile(r"'(?:[^']|'')*'|[()\[\]{}]|, |\. ?")
QUOTED_OR_PARENTHESIS = re.compile(r"'(?:[^']|'')*'|[()]")
QUOTED_OR_LINK = re.compile(r"'(?:[^']|'')*'|\bL(\d+)\b")
SEPARATOR = re.compile(r'\. ?|, |(?=})')


class Unreadable(Exception):
    """A line isn't one that `lmn run` prints."""


class Item:
    """An atom, in the folded form with the terms in its arguments.

    `pieces` is its text, cut where a link stands; `links` are the numbers of these links, port by port.
    """
    __slots__ = ('pieces', 'links')

    def __init__(self, pieces, links):
        self.pieces, self.links = pieces, links

    @property
    def functor(self):
        """What two items have in common that differ in their links alone."""
        return self.pieces

    @property
    def name(self):
        """The name without arguments; of an item with terms, its text with `_` for each link."""
        if self.is_plain:
            return unquoted(self.pieces[0][:-1] if self.links else self.pieces[0])
        return self.text(['_'] * len(self.links))

    @property
    def is_plain(self):
        """Whether each argument is a link."""
        if not self.links:
            return '(' not in QUOTED_OR_PARENTHESIS.findall(self.pieces[0])
        return PLAIN_BEGINNING.fullmatch(self.pieces[0]) is not None and self.pieces[-1] == ')' and all(piece == ', ' for piece in self.pieces[1:-1])

    def text(self, links):
        """The item with these words for its links."""
        return self.pieces[0] + ''.join(link + piece for link, piece in zip(links, self.pieces[1:]))


class Membrane:
    """A membrane: where it lies (None for the root), its items, the numbers of the membranes in it, and its rules."""
    __slots__ = ('parent', 'items', 'membranes', 'rules')

    def __init__(self, parent):
        self.parent, self.items, self.membranes, self.rules = parent, [], [], []


class Process:
    """A process: its membranes in the order in which they are printed, the root first; and the line that was read."""

    def __init__(self, membranes, line):
        self.membranes, self.line = membranes, line
        self.items = [item for membrane in membranes for item in membrane.items]
        self.is_folded = not all(item.is_plain for item in self.items)


def unquoted(name):
    return name[1:-1].replace("''", "'") if name.startswith("'") else name


def plain_item(name, links):
    """An atom each of whose arguments is a link."""
    numbers = [int(link[1:]) for link in links.split(', ')] if links else []
    pieces = (name + '(', *[', '] * (len(numbers) - 1), ')') if numbers else (name,)
    return Item(pieces, numbers)


def item_of(text):
    """An item of its text, terms in its arguments."""
    pieces, links, start = [], [], 0
    for found in QUOTED_OR_LINK.finditer(text):
        if found.group(1):
            pieces.append(text[start:found.start()])
            links.append(int(found.group(1)))
            start = found.end()
    return Item((*pieces, text[start:]), links)


def end_of_parentheses(line, start):
    """The place behind the parenthesis that closes the one at a place."""
    depth = 0
    for found in QUOTED_OR_PARENTHESIS.finditer(line, start):
        depth += (found.group() == '(') - (found.group() == ')')
        if depth == 0:
            return found.end()
    raise Unreadable(f'a rule at {start + 1} is not closed')


def end_of_item(line, start):
    """The place behind an item with terms: the next comma, full stop or brace outside of its brackets."""
    depth = 0
    for found in QUOTED_OR_BRACKET.finditer(line, start):
        word = found.group()
        if depth == 0 and (word in ('}', ', ') or word[0] == '.'):
            return found.start()
        depth += (word in '([{') - (word in ')]}')
    raise Unreadable(f'an item at {start + 1} does not end')


def read_process(line):
    """The process of a line."""
    membranes, here, at = [Membrane(None)], 0, 0
    while at < len(line):
        membrane = membranes[here]
        if line[at] == '{':
            membrane.membranes.append(len(membranes))
            membranes.append(Membrane(here))
            here, at = len(membranes) - 1, at + 1
            continue
        if line[at] == '}':
            if here == 0:
                raise Unreadable(f'a brace at {at + 1} closes nothing')
            here, at = membrane.parent, at + 1
        elif line[at] == '(':
            end = end_of_parentheses(line, at)
            membrane.rules.append(line[at + 1:end - 1])
            at = end
        else:
            found = PLAIN_ATOM.match(line, at)
            end = found.end() if found else end_of_item(line, at)
            if end == at or line[at] in '$@"' or line[at].isupper():
                raise Unreadable(f'no item begins at {at + 1}')
            membrane.items.append(plain_item(*found.groups()) if found else item_of(line[at:end]))
            at = end
        separator = SEPARATOR.match(line, at)
        if not separator:
            raise Unreadable(f'something else stands at {at + 1}')
        at = separator.end()
    if here:
        raise Unreadable('a membrane is not closed')
    return Process(membranes, line)


def read_trace(lines):
    """Of the lines of a run, each process as it comes, and at the end the end line without its mark, if there is one."""
    for number, line in enumerate(lines, 1):
        line = line.rstrip('\n')
        if line.startswith('% '):
            yield line[2:]
            return
        try:
            yield read_process(line)
        except Unreadable as why:
            raise Unreadable(f'line {number} is none that a run prints: {why}') from None
