"""The server: what an editor asks is answered from the text alone, and what is to be marked is told by the program."""
from __future__ import annotations

import sys
from collections.abc import Callable
from typing import Any

from leskvund.server import protocol
from leskvund.server.checking import Checker
from leskvund.server.diagnosing import Fault
from leskvund.server.documents import ENCODINGS, Document
from leskvund.server.hovering import hover
from leskvund.server.occurrences import HEAD, Clause, Occurrence
from leskvund.server.protocol import BadMessage, Connection

FUNCTION = 12
READ, WRITE = 2, 3
FULL_AND_PARTS = {'openClose': True, 'change': 2}
SHOWN_AS_ERROR = 1


class Refusal(Exception):
    """A request can't be answered."""

    def __init__(self, code: int, words: str) -> None:
        super().__init__(words)
        self.code = code


class Server:
    """One editor's server, from `initialize` to `exit`."""

    def __init__(self, connection: Connection) -> None:
        self.connection = connection
        self.documents: dict[str, Document] = {}
        self.faults: dict[str, list[Fault]] = {}
        self.encoding = 'utf-16'
        self.is_open, self.is_shut = False, False
        self.told: set[str] = set()
        self.checker = Checker(self.tell, self.fail)
        self.methods: dict[str, Callable[[dict[str, Any]], Any]] = {
            'initialize': self.initialize, 'shutdown': self.shutdown,
            'textDocument/didOpen': self.opened, 'textDocument/didChange': self.changed, 'textDocument/didClose': self.closed,
            'textDocument/hover': self.hover, 'textDocument/references': self.references,
            'textDocument/documentHighlight': self.highlight, 'textDocument/documentSymbol': self.symbols,
        }

    def serve(self) -> int:
        """Answers until the editor is done; the status with which the server is to end."""
        self.checker.start()
        while True:
            try:
                message = self.connection.read()
            except BadMessage as why:
                self.connection.refuse(None, protocol.PARSE_ERROR, str(why))
                if why.is_framed:
                    continue
                return 1
            if message is None or message.get('method') == 'exit':
                return 0 if self.is_shut else 1
            self.take(message)

    def take(self, message: dict[str, Any]) -> None:
        """Takes a message; a request is answered, whatever goes wrong."""
        number, wants_answer = message.get('id'), 'id' in message and 'method' in message
        try:
            result = self.call(message)
        except Refusal as why:
            if wants_answer:
                self.connection.refuse(number, why.code, str(why))
        except (KeyError, TypeError, ValueError, LookupError, AttributeError) as why:
            words = f'{message.get("method")}: {type(why).__name__}: {why}'
            if wants_answer:
                self.connection.refuse(number, protocol.INTERNAL_ERROR, words)
            else:
                self.fail(words)
        else:
            if wants_answer:
                self.connection.answer(number, result)

    def call(self, message: dict[str, Any]) -> Any:
        """Does what a message asks for."""
        name = message.get('method')
        if name is None:
            return None
        if self.is_shut:
            raise Refusal(protocol.INVALID_REQUEST, 'the server was shut down')
        if not self.is_open and name != 'initialize':
            raise Refusal(protocol.NOT_INITIALIZED, 'the server is not initialized')
        if name not in self.methods:
            if 'id' in message:
                raise Refusal(protocol.METHOD_NOT_FOUND, f'{name} is not known')
            return None
        return self.methods[name](message.get('params') or {})

    def initialize(self, params: dict[str, Any]) -> dict[str, Any]:
        """Tells what the server can do, and takes the first encoding of positions that it knows."""
        general = (params.get('capabilities') or {}).get('general') or {}
        offered = general.get('positionEncodings') or []
        self.encoding = next((each for each in offered if each in ENCODINGS), 'utf-16')
        self.is_open = True
        return {
            'capabilities': {
                'positionEncoding': self.encoding, 'textDocumentSync': FULL_AND_PARTS, 'hoverProvider': True, 'referencesProvider': True,
                'documentHighlightProvider': True, 'documentSymbolProvider': True,
            },
            'serverInfo': {'name': 'leskvund'},
        }

    def shutdown(self, params: dict[str, Any]) -> None:
        """Nothing is answered any more."""
        self.is_shut = True

    def opened(self, params: dict[str, Any]) -> None:
        """A text is shown in the editor."""
        it = params['textDocument']
        self.keep(Document(it['uri'], it.get('version'), it['text'], self.encoding))

    def changed(self, params: dict[str, Any]) -> None:
        """A text was changed."""
        it = params['textDocument']
        self.keep(self.documents[it['uri']].changed(it.get('version'), params['contentChanges']))

    def keep(self, document: Document) -> None:
        self.documents[document.uri] = document
        self.checker.ask(document)

    def closed(self, params: dict[str, Any]) -> None:
        """A text is shown no more; its marks go."""
        uri = params['textDocument']['uri']
        self.documents.pop(uri, None)
        self.faults.pop(uri, None)
        self.checker.forget(uri)
        self.connection.notify('textDocument/publishDiagnostics', {'uri': uri, 'diagnostics': []})

    def tell(self, document: Document, faults: list[Fault]) -> None:
        """Has the editor mark faults, if the text is still this one."""
        if self.documents.get(document.uri) is not document:
            return
        self.faults[document.uri] = faults
        params: dict[str, Any] = {'uri': document.uri, 'diagnostics': [fault.diagnostic(document) for fault in faults]}
        if document.version is not None:
            params['version'] = document.version
        self.connection.notify('textDocument/publishDiagnostics', params)

    def fail(self, words: str) -> None:
        """Shows once what doesn't work."""
        if words not in self.told:
            self.told.add(words)
            self.connection.notify('window/showMessage', {'type': SHOWN_AS_ERROR, 'message': f'leskvund: {words}'})

    def place(self, params: dict[str, Any]) -> tuple[Document, int]:
        """The document and the place of which a request speaks."""
        document = self.documents[params['textDocument']['uri']]
        return document, document.place(params['position'])

    def hover(self, params: dict[str, Any]) -> dict[str, Any] | None:
        """What is told where the mouse rests."""
        document, place = self.place(params)
        found = hover(document, place, self.faults.get(document.uri, []))
        if found is None:
            return None
        text, start, end = found
        return {'contents': {'kind': 'markdown', 'value': text}, 'range': document.range(start, end)}

    def same(self, params: dict[str, Any]) -> tuple[Document, list[Occurrence]]:
        """All places of what stands at a place."""
        document, place = self.place(params)
        found = document.occurrences.at(place)
        return document, [] if found is None else document.occurrences.of(found)

    def references(self, params: dict[str, Any]) -> list[dict[str, Any]]:
        """Where a name is used."""
        document, places = self.same(params)
        return [{'uri': document.uri, 'range': document.range(it.token.start, it.token.end)} for it in places]

    def highlight(self, params: dict[str, Any]) -> list[dict[str, Any]]:
        """Where a name is used: read where a head asks for it, written where it is made."""
        document, places = self.same(params)
        return [{'range': document.range(it.token.start, it.token.end), 'kind': READ if it.side == HEAD else WRITE} for it in places]

    def symbols(self, params: dict[str, Any]) -> list[dict[str, Any]]:
        """The rules, each with those that it makes."""
        document = self.documents[params['textDocument']['uri']]
        inner: dict[Clause | None, list[Clause]] = {}
        for rule in document.occurrences.rules:
            outer = rule.outer.rule() if rule.outer else None
            inner.setdefault(outer, []).append(rule)
        made: dict[Clause, dict[str, Any]] = {}
        for rule in reversed(document.occurrences.rules):
            made[rule] = symbol(document, rule, [made[it] for it in inner.get(rule, [])])
        return [made[rule] for rule in inner.get(None, [])]


def symbol(document: Document, rule: Clause, children: list[dict[str, Any]]) -> dict[str, Any]:
    """A rule as an editor lists it."""
    end = rule.label.end if rule.label is not None else min(rule.end, rule.start + 1)
    return {
        'name': document.occurrences.label(rule), 'kind': FUNCTION, 'range': document.range(rule.start, rule.end),
        'selectionRange': document.range(rule.start, end), 'children': children,
    }


def main() -> int:
    """Serves over standard input and output."""
    server = Server(Connection(sys.stdin.buffer, sys.stdout.buffer))
    try:
        return server.serve()
    except BrokenPipeError:
        return 1
    except KeyboardInterrupt:
        return 130


if __name__ == '__main__':
    sys.exit(main())
