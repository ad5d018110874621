"""Small random programs in all forms of the language."""

NAMES = 'ab'
BODY_TERMS = ('1', '2', 'f', '[]', 'g(h)', '[1]', '3')
CONDITIONS = ('int({})', 'unary({})', 'ground({})', 'ground({})', '{} > 1', '{} =\\= 2', '{} =< 2')


class Program:
    """A random program: each link stands twice in its process and in each rule."""

    def __init__(self, chance):
        self.chance = chance

    def text(self):
        self.open_links = []
        clauses = [self.item(0) for _ in range(self.chance.randint(3, 6))]
        clauses += [self.chance.choice(NAMES) + f'({link})' for link in self.open_links]
        clauses += [RandomRule(self.chance).text() for _ in range(self.chance.randint(2, 4))]
        self.chance.shuffle(clauses)
        return '.\n'.join(clauses) + '.\n'

    def link(self):
        if self.open_links and self.chance.random() < 0.6:
            return self.open_links.pop(self.chance.randrange(len(self.open_links)))
        self.open_links.append(f'X{self.chance.getrandbits(40)}')
        return self.open_links[-1]

    def item(self, depth):
        if depth < 2 and self.chance.random() < 0.4:
            items = [self.item(depth + 1) for _ in range(self.chance.randint(0, 3))]
            rules = [f'({RandomRule(self.chance).text()})'] if self.chance.random() < 0.25 else []
            return '{' + ', '.join(items + rules) + '}'
        arguments = [self.chance.choice(BODY_TERMS) if self.chance.random() < 0.35 else self.link() for _ in range(self.chance.choice((0, 0, 1, 1, 1, 2)))]
        return self.chance.choice(NAMES) + (f'({", ".join(arguments)})' if arguments else '')


class RandomRule:
    """A random rule."""

    def __init__(self, chance):
        self.chance, self.links, self.count, self.typed, self.contexts, self.rule_contexts = chance, [], 0, [], [], []

    def text(self):
        head = self.head(0) or [self.chance.choice(NAMES)]
        guard = self.guard()
        body = self.body(0) + self.left
        body += [f'{self.chance.choice(NAMES)}({link})' for link in self.links]
        return f'{", ".join(head)} :- {guard}{", ".join(body)}'

    def link(self):
        if self.links and self.chance.random() < 0.4:
            return self.links.pop(self.chance.randrange(len(self.links)))
        self.count += 1
        self.links.append(f'X{self.count}')
        return self.links[-1]

    def atom(self, in_head):
        arguments = []
        for _ in range(self.chance.choice((0, 0, 1, 1, 1, 2))):
            draw = self.chance.random()
            if in_head and draw < 0.2:
                self.typed.append(f'$t{len(self.typed)}')
                arguments.append(self.typed[-1])
            elif not in_head and draw < 0.3 and self.typed:
                arguments.append(self.chance.choice(self.typed))
            elif draw < 0.35:
                arguments.append(self.chance.choice(BODY_TERMS))
            else:
                arguments.append(self.link())
        return self.chance.choice(NAMES) + (f'({", ".join(arguments)})' if arguments else '')

    def head(self, depth):
        items = [self.atom(True) for _ in range(self.chance.choice((0, 1, 1, 2) if depth == 0 else (0, 0, 1)))]
        for _ in range(self.chance.choice((0, 0, 0, 1, 2)) if depth < 2 else 0):
            items.append('{' + ', '.join(self.head_membrane(depth + 1)) + '}')
        return items

    def head_membrane(self, depth):
        items, draw = self.head(depth), self.chance.random()
        if draw < 0.85:
            self.contexts.append(f'$c{len(self.contexts)}' + ('[]' if draw < 0.2 else ''))
            items.append(self.contexts[-1])
        if self.chance.random() < 0.4:
            self.rule_contexts.append(f'@r{len(self.rule_contexts)}')
            items.append(self.rule_contexts[-1])
        return items

    def guard(self):
        """A guard, and what of contexts the body still has to say."""
        conditions = [self.chance.choice(CONDITIONS).format(name) for name in self.typed]
        if len(self.typed) > 1 and self.chance.random() < 0.4:
            conditions.append(f'{self.chance.choice(self.typed)} {self.chance.choice(("=", chr(92) + "=", "<"))} {self.chance.choice(self.typed)}')
        self.left = [name for name in self.contexts if not name.endswith(']')]
        for name in [name for name in self.contexts if name.endswith(']')] + self.rule_contexts:
            self.left += [name] * self.chance.choice((0, 1, 1, 2))
        if self.typed and self.chance.random() < 0.2:
            conditions.append(f'$z = {self.chance.choice(self.typed)} {self.chance.choice(("+", "-", "*", "/", "mod"))} {self.chance.randint(-2, 3)}')
            self.left.append('a($z)')
        self.chance.shuffle(self.left)
        return ', '.join(conditions) + ' | ' if conditions else ''

    def body(self, depth):
        items = [self.atom(False) for _ in range(self.chance.choice((0, 1, 1)))]
        if self.chance.random() < 0.1:
            items.append(f'({self.chance.choice(NAMES)} :- {self.chance.choice(NAMES)})')
        if self.chance.random() < 0.1:
            items.append(f'{self.link()} = {self.link()}')
        while self.left and self.chance.random() < 0.5:
            items.append(self.left.pop())
        for _ in range(self.chance.choice((0, 0, 1)) if depth < 2 else 0):
            items.append('{' + ', '.join(self.body(depth + 1)) + '}')
        return items
