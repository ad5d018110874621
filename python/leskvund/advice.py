"""What can be said of a text beyond its refusal: the cure for a code, and what is accepted and hardly meant."""
import os
import re

from leskvund.patterns import Rules, is_integer
from leskvund.program import TOP
from leskvund.regions import all_rules, region_of_line
from leskvund.texts import clauses_of, cut, is_rule, tokens_of

PAGE = os.path.join(TOP, 'docs', 'refusals.md')
CELL = re.compile(r'(?<!\\)\|')
CLOSED_TERM = re.compile(r"\[\s*\]|-?\d+|[a-z]\w*|'(?:[^']|'')*'")
LINK = re.compile(r'[A-Z_]\w*')
LIKE_A_VARIABLE = re.compile(r'[a-z]\d*')


def row_of(code):
    """The cells of the row that docs/refusals.md has for a code, or None."""
    try:
        with open(PAGE, encoding='utf-8') as page:
            lines = page.read().split('\n')
    except OSError:
        return None
    for line in lines:
        cells = [cell.strip().replace('\\|', '|') for cell in CELL.split(line)][1:-1]
        if len(cells) >= 7 and cells[0] == f'`{code}`':
            return cells
    return None


def cure(code):
    """What is wrong, and what stands instead, by docs/refusals.md."""
    cells = row_of(code)
    if cells is None:
        return []
    lines = [f'  {cells[2]}', f'  instead: {cells[6]}']
    return lines + ([f'  as {cells[5]}, and not {cells[3]}'] if cells[3] else [])


def level_functors(top):
    """The functors of a head or a body, integers of guards left out."""
    return {leaf[1] for level in top.below() for leaf in level.leaves if leaf[0] == 'atom' and not is_integer(leaf[1])}


def unmade_functors(line):
    """The functors that a head asks for and that neither the process of a line nor a body has: the rule, the functor, and what may be meant."""
    root = region_of_line(line, Rules(line))
    rules = all_rules(root)
    made = {atom.functor for region in root.below() for atom in region.atoms}
    made = made.union(*(level_functors(rule.body) for rule in rules))
    names = {}
    for functor in made:
        names.setdefault(functor[0], []).append(functor[1])
    return [(rule, functor, like(functor, names)) for rule in rules for functor in sorted(level_functors(rule.head.levels[0]) - made)]


def unmade(line):
    """Warnings of functors that a head asks for and that neither the process nor a body has."""
    return [f'{name}/{arity} is in a head and nothing makes it, so this rule never fires: {rule.text.strip()}{hint}'
            for rule, (name, arity), hint in unmade_functors(line)]


def like(functor, names):
    """What may be meant by a functor that nothing makes."""
    name, arity = functor
    if name in names:
        return f'\n  {", ".join(f"{name}/{each}" for each in sorted(names[name]))} is made; an atom that stands as an argument has one link more'
    near = [other for other in names if len(other) > 2 and is_near(name, other)]
    if near:
        return f'\n  is {near[0]} meant?'
    return f'\n  a link is written {name.upper()}, a typed context ${name}' if arity == 1 and LIKE_A_VARIABLE.fullmatch(name) else ''


def is_near(one, other):
    """Whether a letter that is added, left out, another one, or exchanged with the next makes one name of the other."""
    if len(one) == len(other):
        differ = [at for at in range(len(one)) if one[at] != other[at]]
        return len(differ) == 1 or len(differ) == 2 and differ[1] == differ[0] + 1 and one[differ[0]] == other[differ[1]] and one[differ[1]] == other[differ[0]]
    longer, shorter = (one, other) if len(one) > len(other) else (other, one)
    return len(longer) == len(shorter) + 1 and any(longer[:at] + longer[at + 1:] == shorter for at in range(len(longer)))


def habits(text):
    """Warnings of what those who come from Prolog write, and what it means here."""
    warnings = []
    for clause in clauses_of(text):
        warnings += habits_of(clause)
    return warnings


def habits_of(clause):
    words = [word for word in tokens_of(clause) if word != ' ']
    warnings = []
    if words.count('_') == 2:
        warnings.append(f'the two _ are one link, from one place to the other; write two names: {short(clause)}')
    if not is_rule(clause):
        return warnings
    head, _, rest = clause.partition(':-')
    parts = cut(rest, {'|'})
    items = cut(parts[-1], {','}) if parts else []
    for item in items[:-1]:
        if is_test(item, head) and not all(is_connector(each) for each in items):
            warnings.append(f'{item} is no test: the body makes it, whatever stands at the link; what is asked for stands in the head: {short(clause)}')
    return warnings


def is_connector(item):
    """Whether an item of a body is `s = t`; where all are, as in the first case of a function with two values, none is a test."""
    return len(cut(item, {'='})) == 2


def is_test(item, head):
    """Whether an item of a body, behind which another one stands, joins a link of the head to a term without links."""
    sides = [side.strip() for side in cut(item, {'='})]
    if len(sides) != 2:
        return False
    links = [side for side in sides if LINK.fullmatch(side)]
    terms = [side for side in sides if CLOSED_TERM.fullmatch(side)]
    return len(links) == len(terms) == 1 and links[0] in list(tokens_of(head))


def short(clause):
    text = ' '.join(clause.split())
    return text if len(text) <= 90 else text[:87] + '...'
