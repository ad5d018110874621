"""Messages of JSON-RPC with their headers, over two streams of bytes."""
from __future__ import annotations

import json
import threading
from typing import Any, BinaryIO

PARSE_ERROR, INVALID_REQUEST, METHOD_NOT_FOUND, INTERNAL_ERROR, NOT_INITIALIZED = -32700, -32600, -32601, -32603, -32002


class BadMessage(Exception):
    """What was read is no message. `is_framed` says whether the next one can be found behind it."""

    def __init__(self, words: str, is_framed: bool) -> None:
        super().__init__(words)
        self.is_framed = is_framed


class Connection:
    """Reads messages, and writes them from any thread."""

    def __init__(self, source: BinaryIO, target: BinaryIO) -> None:
        self.source, self.target, self.lock = source, target, threading.Lock()

    def read(self) -> dict[str, Any] | None:
        """The next message; None at the end."""
        length = self.length()
        if length is None:
            return None
        content = self.source.read(length)
        if len(content) < length:
            return None
        try:
            message = json.loads(content.decode('utf-8'))
        except (ValueError, RecursionError) as why:
            raise BadMessage(f'no JSON: {why}', True) from None
        if not isinstance(message, dict):
            raise BadMessage('no message', True)
        return message

    def length(self) -> int | None:
        """The length that a header says; None at the end."""
        length = None
        while True:
            line = self.source.readline()
            if not line:
                return None
            name, _, value = line.decode('ascii', 'replace').partition(':')
            if not line.strip():
                break
            if name.strip().lower() == 'content-length' and value.strip().isdigit():
                length = int(value)
        if length is None:
            raise BadMessage('a header without Content-Length', False)
        return length

    def write(self, message: dict[str, Any]) -> None:
        """Writes a message."""
        content = json.dumps({'jsonrpc': '2.0', **message}, ensure_ascii=True, separators=(',', ':')).encode('ascii')
        with self.lock:
            self.target.write(b'Content-Length: %d\r\n\r\n%b' % (len(content), content))
            self.target.flush()

    def notify(self, method: str, params: dict[str, Any]) -> None:
        """Writes a message that wants no answer."""
        self.write({'method': method, 'params': params})

    def answer(self, number: int | str | None, result: Any) -> None:
        """Answers a request."""
        self.write({'id': number, 'result': result})

    def refuse(self, number: int | str | None, code: int, words: str) -> None:
        """Answers a request by an error."""
        self.write({'id': number, 'error': {'code': code, 'message': words}})
