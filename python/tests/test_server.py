"""The language server, asked over its streams."""
from __future__ import annotations

import os
import stat
import time
from collections.abc import Callable, Iterator
from pathlib import Path

import pytest
from client import Client, span
from conftest import refusals

SHARE = '''ready. ready. free.
take  @@ ready, free :- busy.
leave @@ busy :- done, free.
'''


@pytest.fixture
def start() -> Iterator[Callable[..., Client]]:
    """Starts servers, which are ended behind the test."""
    clients: list[Client] = []

    def begin(environment: dict[str, str] | None = None, **options) -> Client:
        clients.append(Client({**os.environ, **(environment or {})}, **options))
        return clients[-1]

    yield begin
    for client in clients:
        client.kill()


@pytest.fixture
def client(start) -> Client:
    return start()


@pytest.fixture(scope='module')
def patient() -> Iterator[Client]:
    """One server for many texts."""
    client = Client({**os.environ})
    yield client
    client.kill()


def test_a_whole_conversation(client: Client) -> None:
    assert client.capabilities['textDocumentSync'] == {'openClose': True, 'change': 2}
    assert client.capabilities['hoverProvider'] and client.capabilities['referencesProvider']
    assert client.open(SHARE) == []
    assert client.end() == 0


def test_a_refusal_is_marked_with_its_cure(client: Client) -> None:
    mark, = client.open('a.\na(X) :- b.\n')
    assert (mark['range'], mark['severity'], mark['code'], mark['source']) == (span(1, 2, 3), 1, 'E22', 'lmn')
    assert mark['message'].startswith('link occurs once in rule') and 'instead: what a link leads to is thrown away by a typed context' in mark['message']


@pytest.mark.parametrize('row', refusals(), ids=lambda row: row[0].strip('`'))
def test_each_refusal_is_marked_at_its_place(patient: Client, row: list[str]) -> None:
    code, text, place = row[0].strip('`'), row[3].strip('`'), row[4]
    line, column = map(int, place.split(':'))
    mark = next(mark for mark in patient.open(text) if mark['severity'] == 1)
    assert mark['code'] == code and mark['range']['start'] == {'line': line - 1, 'character': column - 1}
    assert mark['range']['end'] != mark['range']['start']
    told = patient.at('hover', line - 1, column - 1)['contents']['value']
    assert code in told and row[5] in told


def test_each_rule_that_is_refused_is_marked(client: Client) -> None:
    marks = client.open("r @@ a(X) :- 'é', b.\na(c).\ns @@ {$p} :- d. t @@ e($x) :- f. u :- g.\n/* é */ v @@ 'é', h(X) :- i.")
    assert [(mark['code'], mark['range']['start']) for mark in marks if mark['severity'] == 1] == [
        ('E22', {'line': 0, 'character': 7}), ('E33', {'line': 2, 'character': 6}), ('E40', {'line': 2, 'character': 23}), ('E22', {'line': 3, 'character': 20})]


def test_a_refusal_of_the_process_is_the_only_one(client: Client) -> None:
    assert [mark['code'] for mark in client.open('a(X). b :- c(Y).')] == ['E20']
    assert [mark['code'] for mark in client.open('a :- b(. c :- d(Y).', 'file:///b.lmn')] == ['E10', 'E22']


def test_marks_follow_what_is_typed(client: Client) -> None:
    assert client.open('a(X).') != []
    assert client.change({'range': span(0, 4, 4), 'text': ', b(X)'}) == []
    assert client.change({'range': span(0, 8, 9), 'text': 'Y'}) != []
    assert client.change({'text': 'a(X), b(X).'}) == []
    mark, = client.change({'range': span(0, 8, 9), 'text': 'Y'}, {'range': span(0, 0, 0), 'text': 'c.\n'})
    assert mark['code'] == 'E20' and mark['range'] == span(1, 2, 3)


def test_quick_typing_marks_the_last_version(client: Client) -> None:
    client.open('a.')
    for at in range(30):
        client.version += 1
        client.notify('textDocument/didChange', {'textDocument': {'uri': 'file:///it.lmn', 'version': client.version}, 'contentChanges': [{'text': 'a' * at + '(X).'}]})
    assert client.change({'text': 'b.'}) == []


def test_a_link_that_stands_three_times_shows_the_others(client: Client) -> None:
    mark, = client.open('a(X), b(X), c(X).')
    assert mark['range'] == span(0, 14, 15)
    assert [it['location']['range'] for it in mark['relatedInformation']] == [span(0, 2, 3), span(0, 8, 9)]


def test_warnings_of_what_is_hardly_meant(client: Client) -> None:
    unmade, = client.open('ready.\nr @@ redy :- done.\n')
    assert (unmade['range'], unmade['severity']) == (span(1, 5, 9), 2) and 'redy/0' in unmade['message'] and 'ready' in unmade['message']
    no_test, = client.open('a(X, Y) :- X = [], b(Y). a(P, Q), c(P, Q).', 'file:///b.lmn')
    assert no_test['range'] == span(0, 11, 17) and 'no test' in no_test['message']
    one_link, = client.open('b(_, _) :- c. b(X, X).', 'file:///c.lmn')
    assert one_link['range'] == span(0, 5, 6) and one_link['severity'] == 2
    assert client.open('a(_), b(_).', 'file:///d.lmn') == []


def test_the_users_program_does_not_run(start, tmp_path: Path) -> None:
    log, program = tmp_path / 'log', tmp_path / 'lmn'
    program.write_text(f'#!/bin/sh\necho "$*" >> {log}\necho "a. (a :- a)."\necho "% budget after 0"\nexit 1\n')
    os.chmod(program, stat.S_IRWXU)
    assert start({'LMN': str(program)}).open('a. a :- a.') == []
    command, _, *options = log.read_text().split()
    assert command == 'run' and options == ['--budget', '0']


def test_a_text_that_runs_for_ever_is_only_loaded(client: Client) -> None:
    begun = time.monotonic()
    assert client.open('a. a :- a, a.') == []
    assert time.monotonic() - begun < 5


def test_without_a_program_it_is_said_once(start) -> None:
    client = start({'LMN': '/no/such/program'})
    assert client.open('a(X).') == []
    assert client.change({'text': 'b.'}) == []
    assert client.at('hover', 0, 0)['contents']['value'].startswith('**`b/0`**')
    assert client.end() == 0


def test_what_is_wrong_is_shown(start) -> None:
    client = start({'LMN': '/no/such/program'})
    client.version += 1
    client.notify('textDocument/didOpen', {'textDocument': {'uri': 'file:///it.lmn', 'languageId': 'lmntal', 'version': 1, 'text': 'a.'}})
    assert '/no/such/program' in client.wait_for('window/showMessage')['message']


def test_hover_tells_where_a_functor_is_used(client: Client) -> None:
    client.open(SHARE)
    told = client.at('hover', 2, 10)
    assert told['range'] == span(2, 9, 13) and told['contents']['kind'] == 'markdown'
    assert told['contents']['value'].split('\n') == ['**`busy/0`**', '- asked for by `leave`', '- made by `take`']
    assert '2 in the process' in client.at('hover', 0, 0)['contents']['value']


@pytest.mark.parametrize('name, words', [
    ('L', '2 places'), ('$x', '`int`'), ('$p', 'all else'), ('$q', 'no link leads out'), ('@s', 'rules of a membrane'), ('int', 'is an integer'),
    ('$y', 'computes'), ('r', 'The rule `r`'),
])
def test_hover_of_links_contexts_and_conditions(patient: Client, name: str, words: str) -> None:
    text = 'r @@ {a($x, L), $p, @s}, {b(L), $q[]} :- int($x), $y = $x + 1 | {c($y), $p, @s}, {$q[]}.'
    patient.open(text)
    assert words in patient.at('hover', 0, text.index(name))['contents']['value']
    assert patient.at('hover', 0, 3) is None


def test_references_of_a_functor_are_those_with_its_arity(client: Client) -> None:
    client.open("p(a, X), q(X). 'p'(X, Y) :- p(Y, X), p. p(p).")
    assert [it['range'] for it in client.at('references', 0, 0)] == [span(0, 0, 1), span(0, 15, 18), span(0, 28, 29)]
    assert [it['range'] for it in client.at('references', 0, 37)] == [span(0, 37, 38)]
    assert [it['range'] for it in client.at('references', 0, 42)] == [span(0, 40, 41), span(0, 42, 43)]
    assert client.at('references', 0, 14) == []


def test_links_are_those_of_their_rule(client: Client) -> None:
    client.open('a(X), {b(X)}. a(X) :- c(X), {d(Y), e(Y), (f(X) :- g(X))}.')
    assert [it['range'] for it in client.at('references', 0, 2)] == [span(0, 2, 3), span(0, 9, 10)]
    assert [it['range'] for it in client.at('references', 0, 16)] == [span(0, 16, 17), span(0, 24, 25)]
    assert [it['range'] for it in client.at('references', 0, 52)] == [span(0, 44, 45), span(0, 52, 53)]


def test_highlights_tell_what_is_asked_for_from_what_is_made(client: Client) -> None:
    client.open(SHARE)
    assert [(it['range'], it['kind']) for it in client.at('documentHighlight', 2, 9)] == [(span(1, 24, 28), 3), (span(2, 9, 13), 2)]


def test_symbols_are_the_rules(client: Client) -> None:
    client.open(SHARE + '{a, (b :- c)}. go :- {d, (made @@ e :- f)}.\n')
    symbols = client.request('textDocument/documentSymbol', {'textDocument': {'uri': 'file:///it.lmn'}})
    assert [(it['name'], [child['name'] for child in it['children']]) for it in symbols] == [
        ('take', []), ('leave', []), ('b :- c', []), ('go :- {d, (made @@ e :- f)}', ['made'])]
    assert symbols[0]['range'] == span(1, 0, 28) and symbols[0]['selectionRange'] == span(1, 0, 4)


TEXT = "'é𝄞', a(X)."


@pytest.mark.parametrize('encodings, chosen, start_of_link', [
    (None, 'utf-16', 9), (['utf-16'], 'utf-16', 9), (['utf-8', 'utf-16'], 'utf-8', 12), (['utf-32'], 'utf-32', 8), (['utf-7', 'utf-8'], 'utf-8', 12), ([], 'utf-16', 9),
])
def test_positions_by_each_encoding(start, encodings: list[str] | None, chosen: str, start_of_link: int) -> None:
    client = start(encodings=encodings)
    assert client.capabilities['positionEncoding'] == chosen
    mark, = client.open(TEXT)
    assert mark['code'] == 'E20' and mark['range'] == span(0, start_of_link, start_of_link + 1)
    assert client.at('hover', 0, start_of_link)['range'] == span(0, start_of_link, start_of_link + 1)
    mark, = client.change({'range': span(0, start_of_link, start_of_link + 1), 'text': 'YY'})
    assert mark['range'] == span(0, start_of_link, start_of_link + 2)


@pytest.mark.parametrize('end', ['\n', '\r\n', '\r'])
def test_lines_end_as_the_protocol_says(client: Client, end: str) -> None:
    mark, = client.open(f'a.{end}b.{end}c(X).{end}')
    assert mark['range'] == span(2, 2, 3)
    assert client.change({'range': {'start': {'line': 1, 'character': 2}, 'end': {'line': 2, 'character': 5}}, 'text': ''}) == []


def test_a_text_of_strange_letters(client: Client) -> None:
    for text in ('', '\n', 'a', "'", '/*', 'a(', '{{{', '}}}', 'a :- ', ':-', '\ud800', 'a\x00b', '$', '@', 'a(b(c(', '[1, 2 |', 'x' * 5000, '((((' * 100):
        marks = client.open(text)
        assert all(mark['range']['start']['line'] >= 0 for mark in marks)
        assert client.request('textDocument/documentSymbol', {'textDocument': {'uri': 'file:///it.lmn'}}) is not None
        client.at('hover', 0, 0)
    assert client.end() == 0


def test_a_long_text_is_marked_soon(client: Client) -> None:
    text = ''.join(f'r{at} @@ a{at}($x, L) :- $y = $x + 1 | a{at + 1}($y, L).\n' for at in range(3000)) + 'a0(1, X), b(X).\n'
    begun = time.monotonic()
    marks = client.open(text)
    assert marks == [] and time.monotonic() - begun < 10


def test_errors_of_the_protocol(start) -> None:
    client = start(begins=False)
    assert client.ask('textDocument/hover', {})['error']['code'] == -32002
    client.send(b'{')
    assert client.next()['error']['code'] == -32700
    client.request('initialize', {'capabilities': {}})
    assert client.ask('textDocument/rename', {})['error']['code'] == -32601
    assert client.ask('textDocument/hover', {'textDocument': {'uri': 'file:///none'}, 'position': {'line': 0, 'character': 0}})['error']['code'] == -32603
    client.notify('$/unknown', {})
    assert client.request('shutdown', None) is None
    assert client.ask('textDocument/hover', {})['error']['code'] == -32600
    client.notify('exit', None)
    assert client.server.wait(timeout=10) == 0


@pytest.mark.parametrize('ending', ['exit', 'close', 'nonsense'])
def test_an_end_without_shutdown_is_an_error(client: Client, ending: str) -> None:
    if ending == 'exit':
        client.notify('exit', None)
    elif ending == 'nonsense':
        client.server.stdin.write(b'nonsense\r\n\r\n')
        client.server.stdin.flush()
    else:
        client.server.stdin.close()
    assert client.server.wait(timeout=10) == 1


def test_closed_texts_lose_their_marks(client: Client) -> None:
    assert client.open('a(X).') != []
    client.notify('textDocument/didClose', {'textDocument': {'uri': 'file:///it.lmn'}})
    assert client.wait_for('textDocument/publishDiagnostics')['diagnostics'] == []
    assert client.open('a(X).', 'file:///other.lmn') != []
