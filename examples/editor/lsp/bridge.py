"""The requests and notifications of the language server protocol that the bridge takes."""

import sys
import traceback
from collections.abc import Callable
from typing import Any

from bplclient.session import Options

from . import answers, wire
from .client import Client
from .proving import Document
from .text import Text, Version
from .wire import Reader, Refused, Writer

INCREMENTAL = 2

CAPABILITIES = {
    "positionEncoding": "utf-16",
    "textDocumentSync": {"openClose": True, "change": INCREMENTAL, "save": {"includeText": False}},
    "codeLensProvider": {"resolveProvider": False},
}


def part(of: Any, path: str, kind: type) -> Any:
    """A part of a message's parameters, its names with points between; another kind of it is refused."""
    for name in path.split("."):
        of = of.get(name) if isinstance(of, dict) else None
    if type(of) is not kind:
        raise Refused(wire.INVALID_PARAMS, f"{path} is no {kind.__name__}")
    return of


def offset(text: Text, of: dict, path: str) -> int:
    """The byte of a position in the parameters."""
    line, character = (part(of, f"{path}.{name}", int) for name in ("line", "character"))
    if line < 0 or character < 0:
        raise Refused(wire.INVALID_PARAMS, f"{path} is negative")
    return text.byte(line, character)


def changed(text: Text, change: Any) -> Text:
    """The text after one change, of a range or of the whole."""
    put = part(change, "text", str)
    if change.get("range") is None:
        return Text(put)
    return text.changed(offset(text, change, "range.start"), offset(text, change, "range.end"), put)


class Bridge:
    """One editor, and the documents that it has open."""

    def __init__(self, reader: Reader, writer: Writer, options: Options):
        self.reader = reader
        self.writer = writer
        self.options = options
        self.client = Client(writer)
        self.is_initialized = False
        self.is_shut = False
        self.documents: dict[str, Document] = {}
        self.requests: dict[str, Callable[[Any], Any]] = {
            "initialize": self.initialize,
            "shutdown": self.shutdown,
            "textDocument/codeLens": self.code_lens,
        }
        self.notifications: dict[str, Callable[[Any], None]] = {
            "textDocument/didOpen": self.did_open,
            "textDocument/didChange": self.did_change,
            "textDocument/didSave": self.did_save,
            "textDocument/didClose": self.did_close,
        }

    def run(self) -> int:
        """Takes messages until the editor says `exit` or its input ends; the status to end with."""
        while True:
            try:
                message = self.reader.read()
                if message is None or message.get("method") == "exit":
                    break
                self.take(message)
            except Refused as refused:
                self.writer.refuse(refused)
        self.close_all()
        self.writer.close()
        return 0 if self.is_shut else 1

    def take(self, message: dict) -> None:
        """Takes a message; only a request is answered by an error."""
        method, identity = message.get("method"), message.get("id")
        if method is None and "id" in message and ("result" in message or "error" in message):
            return
        whole = message.get("jsonrpc") == "2.0" and isinstance(method, str)
        if not whole or not isinstance(identity, str | int | None):
            told = identity if isinstance(identity, str | int) else None
            raise Refused(wire.INVALID_REQUEST, "neither a request nor a notification", told)
        if "id" in message:
            self.request(method, message.get("params"), identity)
        elif self.is_initialized and method in self.notifications:
            self.notification(method, message.get("params"))

    def request(self, method: str, params: Any, identity: Any) -> None:
        try:
            self.writer.answer(identity, self.handler(method)(params))
        except Refused as refused:
            refused.identity = identity
            raise
        except Exception as error:
            traceback.print_exc(file=sys.stderr)
            raise Refused(wire.INTERNAL_ERROR, f"{type(error).__name__}: {error}", identity) from error

    def handler(self, method: str) -> Callable[[Any], Any]:
        """What answers a request now."""
        if self.is_shut:
            raise Refused(wire.INVALID_REQUEST, "the server is shut down")
        if not self.is_initialized and method != "initialize":
            raise Refused(wire.NOT_INITIALIZED, "initialize comes first")
        if method not in self.requests:
            raise Refused(wire.METHOD_NOT_FOUND, method)
        return self.requests[method]

    def notification(self, method: str, params: Any) -> None:
        """What is wrong with a notification has no reply, and goes to the editor's log."""
        if self.is_shut:
            return
        try:
            self.notifications[method](params)
        except Refused as refused:
            self.client.log(f"{method}: {refused.message}")
        except Exception as error:
            traceback.print_exc(file=sys.stderr)
            self.client.log(f"{method}: {type(error).__name__}: {error}")

    def initialize(self, params: Any) -> dict:
        if self.is_initialized:
            raise Refused(wire.INVALID_REQUEST, "initialized already")
        self.is_initialized = True
        self.client.capabilities = params.get("capabilities") if isinstance(params, dict) else None
        return {"capabilities": CAPABILITIES, "serverInfo": {"name": "bpl-lsp"}}

    def shutdown(self, _params: Any) -> None:
        self.is_shut = True
        self.close_all()

    def close_all(self) -> None:
        """Closes all documents and waits a moment for their servers to end."""
        for document in self.documents.values():
            document.close()
        for document in self.documents.values():
            document.thread.join(timeout=2)
        self.documents.clear()

    def did_open(self, params: Any) -> None:
        uri = part(params, "textDocument.uri", str)
        version = Version(Text(part(params, "textDocument.text", str)), number_of(params))
        if uri in self.documents:
            self.documents[uri].put(version)
        else:
            self.documents[uri] = Document(uri, version, self.options, self.client)

    def did_change(self, params: Any) -> None:
        document = self.document(params)
        text = document.newest.text
        for change in part(params, "contentChanges", list):
            text = changed(text, change)
        document.put(Version(text, number_of(params)))

    def did_save(self, params: Any) -> None:
        """A saved text is answered again where the server ended with it."""
        document = self.document(params)
        if document.session is None:
            document.put(Version(document.newest.text, document.newest.number))

    def did_close(self, params: Any) -> None:
        document = self.document(params)
        document.close()
        del self.documents[document.uri]
        self.client.publish(document.uri, Version(document.newest.text, None), [])

    def document(self, params: Any) -> Document:
        uri = part(params, "textDocument.uri", str)
        if uri not in self.documents:
            raise Refused(wire.INVALID_PARAMS, f"{uri} isn't open")
        return self.documents[uri]

    def code_lens(self, params: Any) -> list[dict]:
        document = self.document(params)
        return answers.lenses(*document.cut, document.verdicts) if document.cut else []


def number_of(params: Any) -> int | None:
    """The version of the document that a message is about, where it has one."""
    number = params["textDocument"].get("version")
    return number if isinstance(number, int) else None
