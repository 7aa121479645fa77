"""Messages of JSON-RPC with their headers, as the language server protocol wants them."""

import itertools
import json
import queue
import threading
from typing import Any, BinaryIO

PARSE_ERROR = -32700
INVALID_REQUEST = -32600
METHOD_NOT_FOUND = -32601
INVALID_PARAMS = -32602
INTERNAL_ERROR = -32603
NOT_INITIALIZED = -32002

# A longer message is passed over and answered by an error.
MOST_BYTES = 1 << 28


class Refused(Exception):
    """A message that is answered by an error."""

    def __init__(self, code: int, message: str, identity: Any = None):
        super().__init__(message)
        self.code = code
        self.message = message
        self.identity = identity


class Reader:
    """Reads messages."""

    def __init__(self, stream: BinaryIO):
        self.stream = stream

    def read(self) -> dict | None:
        """The next message, or None at the end of the input. What is no message is raised as `Refused`, and
        the next call goes on behind it."""
        length = self.header()
        if length is None:
            return None
        body = self.body(length)
        try:
            message = json.loads(body.decode("utf-8"))
        except (ValueError, RecursionError) as error:
            raise Refused(PARSE_ERROR, "the message is no JSON") from error
        if not isinstance(message, dict):
            raise Refused(INVALID_REQUEST, "the message is no object")
        return message

    def header(self) -> int | None:
        """The length that the next header tells; None at the end of the input."""
        length = None
        lines = 0
        while line := self.stream.readline(4096):
            text = line.strip()
            if not text and lines:
                if length is None:
                    raise Refused(PARSE_ERROR, "a header without Content-Length")
                return length
            lines += bool(text)
            name, _, value = text.partition(b":")
            if name.strip().lower() == b"content-length":
                length = int(value) if value.strip().isdigit() and len(value) < 20 else None
        return None

    def body(self, length: int) -> bytes:
        """So many bytes; of too many none."""
        if length <= MOST_BYTES:
            return self.stream.read(length)
        while length > 0 and (piece := self.stream.read(min(length, 1 << 20))):
            length -= len(piece)
        raise Refused(INVALID_REQUEST, f"the message has more than {MOST_BYTES} bytes")


class Writer:
    """Writes messages, in a thread of its own: who sends one never waits for the editor."""

    def __init__(self, stream: BinaryIO):
        self.stream = stream
        self.waiting: queue.SimpleQueue[bytes | None] = queue.SimpleQueue()
        self.requests = itertools.count(1)
        self.thread = threading.Thread(target=self.run, daemon=True)
        self.thread.start()

    def run(self) -> None:
        while (body := self.waiting.get()) is not None:
            try:
                self.stream.write(b"Content-Length: %d\r\n\r\n%b" % (len(body), body))
                self.stream.flush()
            except (OSError, ValueError):
                # nobody reads any more; the end of the input follows
                pass

    def close(self) -> None:
        """Writes what waits, where the editor still reads it."""
        self.waiting.put(None)
        self.thread.join(timeout=2)

    def send(self, message: dict) -> None:
        self.waiting.put(json.dumps({"jsonrpc": "2.0", **message}, separators=(",", ":")).encode())

    def answer(self, identity: Any, result: Any) -> None:
        self.send({"id": identity, "result": result})

    def refuse(self, refused: Refused) -> None:
        self.send({"id": refused.identity, "error": {"code": refused.code, "message": refused.message}})

    def notify(self, method: str, params: dict) -> None:
        self.send({"method": method, "params": params})

    def ask(self, method: str, params: dict | None = None) -> None:
        """A request whose answer isn't waited for."""
        asked = {"id": f"bpl-lsp/{next(self.requests)}", "method": method}
        self.send(asked if params is None else {**asked, "params": params})
