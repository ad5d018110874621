"""A client of the language server, as an editor is one: it speaks the protocol over the streams of a process."""
from __future__ import annotations

import json
import queue
import subprocess
import sys
import threading
from typing import Any

from conftest import TOP

MOST_SECONDS = 20


class Client:
    """A running server. What it says without being asked waits in `said`."""

    def __init__(self, environment: dict[str, str], encodings: list[str] | None = None, begins: bool = True) -> None:
        command = [sys.executable, str(TOP / 'tools' / 'lsp')]
        self.server = subprocess.Popen(command, stdin=subprocess.PIPE, stdout=subprocess.PIPE, stderr=subprocess.PIPE, env=environment)
        self.read: queue.Queue[dict[str, Any] | None] = queue.Queue()
        self.said: list[dict[str, Any]] = []
        self.number, self.version = 0, 0
        threading.Thread(target=self.listen, daemon=True).start()
        if begins:
            general = {} if encodings is None else {'general': {'positionEncodings': encodings}}
            self.capabilities = self.request('initialize', {'processId': None, 'rootUri': None, 'capabilities': general})['capabilities']
            self.notify('initialized', {})

    def listen(self) -> None:
        """Reads messages until the server ends."""
        stream = self.server.stdout
        while True:
            length = 0
            while (line := stream.readline()).strip():
                name, _, value = line.decode('ascii').partition(':')
                length = int(value) if name == 'Content-Length' else length
            if not line:
                break
            self.read.put(json.loads(stream.read(length)))
        self.read.put(None)

    def send(self, content: bytes) -> None:
        self.server.stdin.write(b'Content-Length: %d\r\n\r\n%b' % (len(content), content))
        self.server.stdin.flush()

    def notify(self, method: str, params: Any) -> None:
        """Says something that wants no answer."""
        self.send(json.dumps({'jsonrpc': '2.0', 'method': method, 'params': params}).encode())

    def ask(self, method: str, params: Any) -> dict[str, Any]:
        """The whole answer to a request."""
        self.number += 1
        self.send(json.dumps({'jsonrpc': '2.0', 'id': self.number, 'method': method, 'params': params}, ensure_ascii=False).encode('utf-8', 'surrogatepass'))
        while True:
            message = self.next()
            if message.get('id') == self.number:
                return message
            self.said.append(message)

    def request(self, method: str, params: Any) -> Any:
        """The result of a request."""
        return self.ask(method, params)['result']

    def next(self) -> dict[str, Any]:
        message = self.read.get(timeout=MOST_SECONDS)
        assert message is not None, f'the server ended: {self.server.stderr.read()}'
        return message

    def wait_for(self, method: str) -> Any:
        """What the server says next by a method."""
        while True:
            message = self.said.pop(0) if self.said else self.next()
            if message.get('method') == method:
                return message['params']

    def open(self, text: str, uri: str = 'file:///it.lmn') -> list[dict[str, Any]]:
        """Shows a text, and answers what is to be marked in it."""
        self.version += 1
        self.notify('textDocument/didOpen', {'textDocument': {'uri': uri, 'languageId': 'lmntal', 'version': self.version, 'text': text}})
        return self.marks()

    def change(self, *changes: dict[str, Any], uri: str = 'file:///it.lmn') -> list[dict[str, Any]]:
        """Changes a text, and answers what is to be marked in it."""
        self.version += 1
        self.notify('textDocument/didChange', {'textDocument': {'uri': uri, 'version': self.version}, 'contentChanges': list(changes)})
        return self.marks()

    def marks(self) -> list[dict[str, Any]]:
        """What is to be marked in the version that was sent last."""
        while True:
            params = self.wait_for('textDocument/publishDiagnostics')
            if params.get('version') == self.version:
                return params['diagnostics']

    def at(self, method: str, line: int, character: int, uri: str = 'file:///it.lmn') -> Any:
        """Asks about a place."""
        params = {'textDocument': {'uri': uri}, 'position': {'line': line, 'character': character}, 'context': {'includeDeclaration': True}}
        return self.request(f'textDocument/{method}', params)

    def end(self) -> int:
        """Shuts the server down, and answers its status."""
        assert self.request('shutdown', None) is None
        self.notify('exit', None)
        return self.server.wait(timeout=MOST_SECONDS)

    def kill(self) -> None:
        self.server.kill()
        self.server.wait()


def span(line: int, start: int, end: int) -> dict[str, Any]:
    """A part of one line as the protocol has it."""
    return {'start': {'line': line, 'character': start}, 'end': {'line': line, 'character': end}}
