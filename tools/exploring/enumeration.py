"""All processes that a printed one leads to, by trying each assignment of each rule in each membrane.

It is written from the language's definition alone, and shares no code with the package leskvund: another reader, another way to
match, to fire and to compare. It is slow, and meant for small processes.
"""
import itertools
import re
from collections import namedtuple

TOKEN = re.compile(r"'(?:[^']|'')*'|-?\d+|[A-Za-z]\w*|[$@]\w+|:-|=:=|=\\=|=<|>=|\\=|[^\s]")
INTEGER = re.compile(r'-?\d+')
SMALLEST, LARGEST = -2 ** 63, 2 ** 63 - 1
MOST_ITEMS = 12

Rule = namedtuple('Rule', 'text head conditions body')
Context = namedtuple('Context', 'name link is_closed')
Connector = namedtuple('Connector', 'one other')
Part = namedtuple('Part', 'atoms root port')


class TooMany(Exception):
    """More processes can be reached than were asked for, or larger ones."""


class Atom:
    """An atom: a name, and the words for its links."""

    def __init__(self, name, links):
        self.name, self.links = name, links

    def is_integer(self):
        return len(self.links) == 1 and INTEGER.fullmatch(self.name) is not None


class Membrane:
    """What stands in a membrane, or at a level of a rule: there leaves are atoms, typed contexts and connectors, in their order."""

    def __init__(self):
        self.leaves, self.membranes, self.contexts, self.rule_contexts, self.rules = [], [], [], [], []

    def all(self):
        """The membrane and all in it."""
        yield self
        for inner in self.membranes:
            yield from inner.all()

    def atoms(self):
        return [leaf for leaf in self.leaves if isinstance(leaf, Atom)]


class Reader:
    """Reads a printed process or rule, token by token."""

    def __init__(self, text):
        self.tokens = TOKEN.findall(text) + ['']
        self.at = 0

    def peek(self):
        return self.tokens[self.at]

    def take(self):
        self.at += 1
        return self.tokens[self.at - 1]

    def skip(self, token):
        if self.peek() == token:
            self.at += 1
            return True
        return False

    def level(self, ends):
        """The items up to one of some tokens, which is left."""
        level = Membrane()
        while self.peek() not in ends:
            self.item(level)
            self.skip(',') or self.skip('.')
        return level

    def item(self, level):
        token = self.take()
        if token == '{':
            level.membranes.append(self.level({'}'}))
            self.take()
        elif token == '(':
            level.rules.append(self.rule())
        elif token[0] == '@':
            level.rule_contexts.append(token)
        elif token[0] == '$':
            self.context(level, token)
        elif self.skip('='):
            level.leaves.append(Connector(token, self.take()))
        else:
            level.leaves.append(Atom(token, self.links()))

    def context(self, level, name):
        if not self.skip('['):
            level.contexts.append(Context(name, None, False))
        elif self.skip(']'):
            level.contexts.append(Context(name, None, True))
        else:
            level.leaves.append(Context(name, self.take(), False))
            self.take()

    def links(self):
        links = []
        if self.skip('('):
            while not self.skip(')'):
                links.append(self.take())
                self.skip(',')
        return links

    def rule(self):
        """A rule whose opening parenthesis was taken, up to behind its closing one."""
        start = self.at
        end = self.closing()
        inner = Reader('')
        inner.tokens = self.tokens[start:end] + ['']
        self.at = end + 1
        text = ' '.join(inner.tokens)
        head = inner.level({':-'})
        inner.take()
        return Rule(text, head, inner.conditions() if inner.has_guard() else [], inner.level({''}))

    def closing(self):
        depth, at = 1, self.at
        while depth:
            depth += (self.tokens[at] == '(') - (self.tokens[at] == ')')
            at += 1
        return at - 1

    def has_guard(self):
        """Whether a bar stands behind, outside of rules of the body."""
        depth = 0
        for token in self.tokens[self.at:]:
            depth += (token in ('(', '{')) - (token in (')', '}'))
            if token == '|' and depth == 0:
                return True
        return False

    def conditions(self):
        """The conditions of a guard: a kind with a name, or a comparison of two expressions."""
        found = []
        while not self.skip('|'):
            if self.peek() in ('int', 'unary', 'ground'):
                kind = self.take()
                self.take()
                found.append((kind, self.take(), None))
                self.take()
            else:
                left = self.expression()
                found.append((self.take(), left, self.expression()))
            self.skip(',')
        return found

    def expression(self):
        value = self.product()
        while self.peek() in ('+', '-'):
            value = (self.take(), value, self.product())
        return value

    def product(self):
        value = self.factor()
        while self.peek() in ('*', '/', 'mod'):
            value = (self.take(), value, self.factor())
        return value

    def factor(self):
        token = self.take()
        if token == '(':
            value = self.expression()
            self.take()
            return value
        return token if token[0] == '$' else int(token)


def read(line):
    """The process of a printed line."""
    return Reader(line).level({''})


def names_in(expression):
    if isinstance(expression, tuple):
        return names_in(expression[1]) | names_in(expression[2])
    return {expression} if isinstance(expression, str) else set()


def kinds_of(rule):
    """The kind of each typed context of a head: the narrowest that a condition asks for."""
    held = {leaf.name for level in rule.head.all() for leaf in level.leaves if isinstance(leaf, Context)}
    asked = {name: {'ground'} for name in held}
    for sign, left, right in rule.conditions:
        if right is None:
            asked[left].add(sign)
        elif not (sign in ('=', '\\=') and left in held):
            for name in (names_in(left) | names_in(right)) & held:
                asked[name].add('int')
    return {name: next(kind for kind in ('int', 'unary', 'ground') if kind in kinds) for name, kinds in asked.items()}


class Ends:
    """Where the links of a process lead, and where its atoms stand."""

    def __init__(self, root):
        self.ends, self.home, self.round = {}, {}, {id(root): []}
        for membrane in root.all():
            for inner in membrane.membranes:
                self.round[id(inner)] = [membrane, *self.round[id(membrane)]]
            for atom in membrane.leaves:
                self.home[id(atom)] = membrane
                for port, link in enumerate(atom.links):
                    self.ends.setdefault(link, []).append((atom, port))

    def other(self, atom, port):
        """The other end of a link."""
        one, two = self.ends[atom.links[port]]
        return two if one[0] is atom and one[1] == port else one

    def is_inside(self, atom, membrane):
        home = self.home[id(atom)]
        return home is membrane or any(each is membrane for each in self.round[id(home)])


class Assignment:
    """A head's atoms and membranes with their images, which are told apart by what they are, not by how they look."""

    def __init__(self, rule, ends, levels, atoms):
        self.rule, self.ends, self.levels, self.atoms = rule, ends, levels, atoms
        self.used = {id(image) for _, image in atoms} | {id(image) for _, image in levels[1:]}
        self.places = {}
        for item, image in atoms:
            for port, link in enumerate(item.links):
                self.places.setdefault(link, []).append((image, port))
        self.parts, self.values = {}, {}

    def is_match(self):
        return self.links_agree() and self.read_parts() and self.links_leave() and all(map(self.holds_no_more, range(1, len(self.levels)))) and self.guard_holds()

    def links_agree(self):
        """A link that occurs twice joins just these two ports."""
        return all(len(places) == 1 or places[0][0].links[places[0][1]] == places[1][0].links[places[1][1]] for places in self.places.values())

    def links_leave(self):
        """A link that occurs once, at an atom inside of head membranes, leads out of the outermost one."""
        typed = {leaf.link for level, _ in self.levels for leaf in level.leaves if isinstance(leaf, Context)}
        outermost = {}
        for inner in self.rule.head.membranes:
            image = next(image for level, image in self.levels if level is inner)
            for level in inner.all():
                outermost.update((id(item), image) for item in level.atoms())
        for item, image in self.atoms:
            for port, link in enumerate(item.links):
                if id(item) in outermost and len(self.places[link]) == 1 and link not in typed and self.ends.is_inside(self.ends.other(image, port)[0], outermost[id(item)]):
                    return False
        return True

    def read_parts(self):
        """Finds what each typed context stands for. Whether each is whole and of its kind."""
        kinds = kinds_of(self.rule)
        for level, image in self.levels:
            for leaf in level.leaves:
                if isinstance(leaf, Context) and not self.read_part(leaf, image, kinds[leaf.name]):
                    return False
        return True

    def read_part(self, context, home, kind):
        root, port = self.ends.other(*self.places[context.link][0])
        if kind != 'ground' and len(root.links) != 1 or kind == 'int' and not root.is_integer():
            return False
        atoms = []
        if not self.walk(root, (root, port), home, atoms):
            return False
        self.parts[context.name] = Part(atoms, root, port)
        if kind == 'int':
            self.values[context.name] = int(root.name)
        return True

    def walk(self, atom, entry, home, atoms):
        """Adds what is reached from an atom, depth first, not by the way in. Whether all of it may be of the part."""
        if any(atom is each for each in atoms):
            return True
        if id(atom) in self.used or self.ends.home[id(atom)] is not home:
            return False
        atoms.append(atom)
        return all((atom, port) == entry or self.walk(self.ends.other(atom, port)[0], entry, home, atoms) for port in range(len(atom.links)))

    def taken(self):
        """What is taken out: images and parts."""
        return self.used | {id(atom) for part in self.parts.values() for atom in part.atoms}

    def rest(self, image):
        """The atoms and membranes of a membrane that stay."""
        taken = self.taken()
        return [atom for atom in image.leaves if id(atom) not in taken], [inner for inner in image.membranes if id(inner) not in taken]

    def holds_no_more(self, number):
        """Whether the image of a head membrane holds no more than the head allows."""
        level, image = self.levels[number]
        atoms, membranes = self.rest(image)
        if image.rules and not level.rule_contexts or not level.contexts and (atoms or membranes):
            return False
        if level.contexts and level.contexts[0].is_closed:
            inside = atoms + [atom for membrane in membranes for each in membrane.all() for atom in each.leaves]
            return all(any(self.ends.other(atom, port)[0] is each for each in inside) for atom in inside for port in range(len(atom.links)))
        return True

    def guard_holds(self):
        return all(map(self.holds, self.rule.conditions))

    def holds(self, condition):
        """Whether a condition holds; one that binds a name does, and binds it."""
        sign, left, right = condition
        if right is None:
            return True
        if sign in ('=', '\\=') and left in self.parts:
            return self.are_equal(self.parts[left], self.parts[right]) == (sign == '=')
        if sign == '=' and left not in self.values:
            self.values[left] = self.value(right)
            return self.values[left] is not None
        one, two = self.value(left), self.value(right)
        if one is None or two is None:
            return False
        return {'<': one < two, '=<': one <= two, '>': one > two, '>=': one >= two, '=:=': one == two, '=\\=': one != two}[sign]

    def value(self, expression):
        """The value of an expression, or None."""
        if not isinstance(expression, tuple):
            return self.values[expression] if isinstance(expression, str) else expression
        one, two = self.value(expression[1]), self.value(expression[2])
        if one is None or two is None or two == 0 and expression[0] in ('/', 'mod'):
            return None
        quotient = abs(one) // abs(two) * (-1 if (one < 0) != (two < 0) else 1) if expression[0] in ('/', 'mod') else 0
        value = {'+': one + two, '-': one - two, '*': one * two, '/': quotient, 'mod': one - quotient * two}[expression[0]]
        return value if SMALLEST <= value <= LARGEST else None

    def are_equal(self, one, other):
        """Whether two parts are equal from their roots on."""
        pairs, todo = {}, [(one.root, other.root)]
        while todo:
            left, right = todo.pop()
            if id(left) in pairs:
                if pairs[id(left)] is not right:
                    return False
                continue
            if (left.name, len(left.links)) != (right.name, len(right.links)):
                return False
            pairs[id(left)] = right
            for port in range(len(left.links)):
                is_root = (left is one.root and port == one.port, right is other.root and port == other.port)
                if is_root[0] != is_root[1]:
                    return False
                if not is_root[0]:
                    ends = self.ends.other(left, port), self.ends.other(right, port)
                    if ends[0][1] != ends[1][1]:
                        return False
                    todo.append((ends[0][0], ends[1][0]))
        return len(one.atoms) == len(other.atoms) == len({id(each) for each in pairs.values()})


def assignments(rule, ends, membrane):
    """All assignments of a head's atoms and membranes to different ones with equal names and arities."""
    def extended(levels, atoms, todo):
        if not todo:
            yield Assignment(rule, ends, levels, atoms)
            return
        level, image = todo[0]
        items = level.atoms()
        for chosen in itertools.permutations(image.leaves, len(items)):
            if all((item.name, len(item.links)) == (each.name, len(each.links)) for item, each in zip(items, chosen)):
                for inner in itertools.permutations(image.membranes, len(level.membranes)):
                    pairs = list(zip(level.membranes, inner))
                    yield from extended(levels + pairs, atoms + list(zip(items, chosen)), todo[1:] + pairs)

    return extended([(rule.head, membrane)], [], [(rule.head, membrane)])


class Maker:
    """Makes the next process of a match, as a copy in which links have new words."""

    def __init__(self, root, home, match):
        self.root, self.home, self.match, self.count, self.same = root, home, match, itertools.count(), {}
        self.links = {link: places[0][0].links[places[0][1]] for link, places in match.places.items()}
        self.images = {context.name: image for level, image in match.levels for context in level.contexts}
        self.images.update((name, image) for level, image in match.levels for name in level.rule_contexts)

    def next(self):
        made = self.copy(self.root, lambda link: link)
        for membrane in made.all():
            for atom in membrane.leaves:
                atom.links = list(map(self.one_of, atom.links))
        return made

    def fresh(self):
        return f'new {next(self.count)}'

    def one_of(self, link):
        while link in self.same:
            link = self.same[link]
        return link

    def link(self, name):
        """The link that a word of the body stands for."""
        return self.links.setdefault(name, None) or self.links.__setitem__(name, self.fresh()) or self.links[name]

    def copy(self, membrane, relink):
        """A copy of a membrane; of the rule's own without what is taken, and with what the body makes."""
        made = Membrane()
        atoms, membranes = self.match.rest(membrane)
        made.leaves = [Atom(atom.name, list(map(relink, atom.links))) for atom in atoms]
        made.membranes = [self.copy(inner, relink) for inner in membranes]
        made.rules = list(membrane.rules)
        if membrane is self.home:
            self.make(self.match.rule.body, made)
        return made

    def make(self, level, made):
        for leaf in level.leaves:
            if isinstance(leaf, Atom):
                made.leaves.append(Atom(leaf.name, list(map(self.link, leaf.links))))
            elif isinstance(leaf, Connector):
                self.unite(self.link(leaf.one), self.link(leaf.other))
            else:
                made.leaves += self.part(leaf)
        for inner in level.membranes:
            new = Membrane()
            self.make(inner, new)
            made.membranes.append(new)
        for context in level.contexts:
            self.put_rest(context, made)
        made.rules += level.rules
        for name in level.rule_contexts:
            made.rules += self.images[name].rules

    def unite(self, one, other):
        one, other = self.one_of(one), self.one_of(other)
        if one != other:
            self.same[one] = other

    def part(self, context):
        """The atoms of a copy of a part, or the integer that the guard bound."""
        if context.name not in self.match.parts:
            return [Atom(str(self.match.values[context.name]), [self.link(context.link)])]
        part = self.match.parts[context.name]
        new = {part.root.links[part.port]: self.link(context.link)}
        for atom in part.atoms:
            for link in atom.links:
                if link not in new:
                    new[link] = self.fresh()
        return [Atom(atom.name, [new[link] for link in atom.links]) for atom in part.atoms]

    def put_rest(self, context, made):
        """Puts what an untyped context stands for into a membrane; of a closed one a copy with links of its own."""
        new = {}

        def relink(link):
            if not context.is_closed:
                return link
            if link not in new:
                new[link] = self.fresh()
            return new[link]

        copy = self.copy(self.images[context.name], relink)
        made.leaves += copy.leaves
        made.membranes += copy.membranes


def renamed(root):
    """A process whose links have short words."""
    words = {}
    for membrane in root.all():
        for atom in membrane.leaves:
            atom.links = [words.setdefault(link, str(len(words))) for link in atom.links]
    return root


def size(root):
    """How many atoms and membranes a process has."""
    return sum(len(membrane.leaves) + len(membrane.membranes) for membrane in root.all())


def shape(membrane):
    """What a process is without its links: processes that are one have equal shapes."""
    return (
        tuple(sorted((atom.name, len(atom.links)) for atom in membrane.leaves)),
        tuple(sorted(map(shape, membrane.membranes))),
        tuple(sorted(rule.text for rule in membrane.rules)),
    )


def neighbours(root):
    """What each atom is with what its links lead to: equal for processes that are one."""
    ends = Ends(root)
    others = [(atom, [ends.other(atom, port) for port in range(len(atom.links))]) for membrane in root.all() for atom in membrane.leaves]
    return tuple(sorted((atom.name, tuple((other.name, len(other.links), port) for other, port in each)) for atom, each in others))


def pairings(one, other, links):
    """All ways in which two processes are one: pairs of equal links, beginning with some."""
    if shape(one) == shape(other):
        for atoms in ordered_alike(one.leaves, other.leaves, links):
            yield from paired_below(one.membranes, other.membranes, atoms)


def paired_below(membranes, others, links):
    """All ways to pair membranes."""
    if not membranes:
        yield links
        return
    for other in others:
        for new in pairings(membranes[0], other, links):
            yield from paired_below(membranes[1:], [each for each in others if each is not other], new)


def ordered_alike(atoms, others, links):
    """All ways to pair atoms that agree with pairs of links, as the pairs that there are then."""
    if not atoms:
        yield links
        return
    for other in others:
        new = joined_pairs(atoms[0], other, links)
        if new is not None:
            yield from ordered_alike(atoms[1:], [each for each in others if each is not other], new)


def joined_pairs(atom, other, links):
    """The pairs of links with those of two atoms, or None where they don't agree. A link has pairs both ways."""
    if (atom.name, len(atom.links)) != (other.name, len(other.links)):
        return None
    new = dict(links)
    for pair in zip(atom.links, other.links):
        for key, value in ((('left', pair[0]), pair[1]), (('right', pair[1]), pair[0])):
            if new.setdefault(key, value) != value:
                return None
    return new


def are_one(one, other):
    """Whether two processes differ in the order of items, links' words and the order of rules alone."""
    return next(pairings(one, other, {}), None) is not None


class Enumeration:
    """All processes that can be reached: `firings` has for each the different pairs of a rule's text and a next process."""

    def __init__(self, line, most, most_items=MOST_ITEMS):
        self.processes, self.firings, self.by_shape = [], [], {}
        self.number(renamed(read(line)))
        for here, root in enumerate(self.processes):
            if len(self.processes) > most or size(root) > most_items:
                raise TooMany
            self.firings.append({(rule, self.number(made)) for rule, made in all_next(root)})

    def number(self, root):
        alike = self.by_shape.setdefault((shape(root), neighbours(root)), [])
        for number in alike:
            if are_one(self.processes[number], root):
                return number
        alike.append(len(self.processes))
        self.processes.append(root)
        return alike[-1]

    def ends(self):
        return [number for number, firings in enumerate(self.firings) if not firings]


def all_next(root):
    """Each rule that can fire with each process that it leads to."""
    ends = Ends(root)
    for membrane in root.all():
        for rule in membrane.rules:
            for match in assignments(rule, ends, membrane):
                if match.is_match():
                    yield rule.text, renamed(Maker(root, membrane, match).next())
