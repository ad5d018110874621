"""What is told of a place on which the mouse rests: a cure, where a functor is used, what a context stands for."""
from __future__ import annotations

from leskvund.server.diagnosing import Cure, Fault
from leskvund.server.documents import Document
from leskvund.server.occurrences import BODY, GUARD, HEAD, PROCESS, Occurrence

CONDITIONS = {
    'int': '`int($x)` holds where `$x` is an integer',
    'unary': '`unary($x)` holds where `$x` is one atom with one argument',
    'ground': '`ground($x)` holds where `$x` is atoms that hang together, in this membrane, apart from those of the head, with no other link that leads out',
}


def hover(document: Document, place: int, faults: list[Fault]) -> tuple[str, int, int] | None:
    """What is told at a place, in Markdown, and of which part of the text; None where there is nothing to tell."""
    for fault in faults:
        if fault.start <= place <= fault.end and fault.code is not None:
            return cure_text(fault), fault.start, fault.end
    found = document.occurrences.at(place)
    if found is not None:
        return text_of(document, found), found.token.start, found.token.end
    for token in document.occurrences.tokens:
        if token.start <= place < token.end and token.text in CONDITIONS:
            return CONDITIONS[token.text], token.start, token.end
    return None


def cure_text(fault: Fault) -> str:
    """A refusal with its row of docs/refusals.md."""
    code = fault.code or ''
    cure = Cure.of(code)
    if cure is None:
        return f'**{code}** {fault.words}'
    example = f'\n\nRefused is {cure.refused}, and not {cure.accepted}' if cure.refused else ''
    words = fault.words.partition('\n')[0]
    return f'**{code}** {words}\n\n{capitalized(cure.wrong)}.\n\nInstead: {cure.words()}{example}'


def capitalized(text: str) -> str:
    return text[:1].upper() + text[1:]


def text_of(document: Document, found: Occurrence) -> str:
    """What is told of a name."""
    if found.kind == 'functor':
        return functor_text(document, found)
    if found.kind == 'link':
        return link_text(document, found)
    if found.kind == 'rule':
        return f'The rule `{found.token.name}`; its name is for readers.'
    return context_text(document, found)


def functor_text(document: Document, found: Occurrence) -> str:
    """Where a functor is used: how often in the process, and in which rules."""
    name, arity = found.key
    lines = [f'**`{name}/{arity}`**']
    lines += [f'- {told}' for told in (process_text(document, found), rules_text(document, found, HEAD, 'asked for by'), rules_text(document, found, BODY, 'made by')) if told]
    others = [f'`{name}/{other}`' for _, other in document.occurrences.functors(name) if other != arity]
    if others:
        lines.append(f'- there is {", ".join(others)} too; an atom that stands as an argument has one link more')
    return '\n'.join(lines)


def process_text(document: Document, found: Occurrence) -> str:
    count = sum(it.side == PROCESS for it in document.occurrences.of(found))
    return f'{count} in the process' if count else ''


def rules_text(document: Document, found: Occurrence, side: str, words: str) -> str:
    """The rules that have a functor on a side, each once."""
    rules = dict.fromkeys(it.clause.rule() for it in document.occurrences.of(found) if it.side == side)
    labels = [f'`{document.occurrences.label(rule)}`' for rule in rules if rule is not None]
    return f'{words} {", ".join(labels)}' if labels else ''


def link_text(document: Document, found: Occurrence) -> str:
    """How often a link stands in its rule or in the process."""
    rule, count = found.scope, len(document.occurrences.of(found))
    where = 'the process' if rule is None else f'the rule `{document.occurrences.label(rule)}`'
    return f'The link `{found.token.text}` of {where}, in {count} place{"" if count == 1 else "s"}.'


def context_text(document: Document, found: Occurrence) -> str:
    """What a context stands for, told from how it is written."""
    name, places = found.token.text, document.occurrences.of(found)
    if found.kind == 'rules':
        return f'`{name}` stands for the rules of a membrane.'
    forms = {form_of(document, it) for it in places if it.side == HEAD}
    if 'closed' in forms:
        return f'`{name}[]` stands for all else in a membrane, where no link leads out of it; it may be copied or left out.'
    if 'open' in forms:
        return f'`{name}` stands for all else in a membrane; it stands once in the body.'
    if 'typed' in forms:
        kinds = ', '.join(f'`{kind}`' for kind in CONDITIONS if has_condition(document, found, kind))
        return f'`{name}` stands for what hangs at an argument{": " + kinds if kinds else ""}.'
    return f'`{name}` is an integer that the guard computes.' if any(it.side == GUARD for it in places) else f'`{name}` is in no head.'


def form_of(document: Document, found: Occurrence) -> str:
    """How a context is written at a place: open, closed or typed."""
    tokens = document.occurrences.tokens
    at = tokens.index(found.token)
    behind = [token.text for token in tokens[at + 1:at + 3]]
    if behind[:1] == ['[']:
        return 'closed' if behind == ['[', ']'] else 'typed'
    return 'typed' if found.in_term else 'open'


def has_condition(document: Document, found: Occurrence, name: str) -> bool:
    """Whether the guard types a context by a condition."""
    tokens, rule = document.occurrences.tokens, found.scope
    return rule is not None and any(
        rule.start <= token.start < rule.end and token.text == name and [it.text for it in tokens[at + 1:at + 3]] == ['(', found.token.text]
        for at, token in enumerate(tokens))
