"""What stands for an editor in the tests: it starts the bridge and exchanges messages with it."""

import json
import os
import queue
import signal
import subprocess
import threading
import time
import unittest
from collections.abc import Callable
from pathlib import Path

FOLDER = Path(__file__).resolve().parents[1]
TOP = FOLDER.parents[1]
SERVER = os.environ.get("BPLSERVE") or str(TOP / "bplserve")
# how long a message is waited for; far more than it takes
SECONDS = 20

CAPABILITIES = {
    "textDocument": {"publishDiagnostics": {"relatedInformation": True, "versionSupport": True}},
    "workspace": {"codeLens": {"refreshSupport": True}},
    "window": {"workDoneProgress": True},
}


class Editor:
    """The bridge's other side."""

    def __init__(self, *words: str):
        self.bridge = subprocess.Popen(
            [FOLDER / "bpl-lsp", *words],
            stdin=subprocess.PIPE,
            stdout=subprocess.PIPE,
            stderr=subprocess.DEVNULL,
        )
        self.messages: queue.Queue[dict | None] = queue.Queue()
        self.requests = 0
        threading.Thread(target=self._read, daemon=True).start()

    def __enter__(self) -> "Editor":
        return self

    def __exit__(self, *_raised) -> None:
        self.end()

    def _read(self) -> None:
        while header := self.bridge.stdout.readline():
            length = int(header.split(b":")[1])
            self.bridge.stdout.readline()
            self.messages.put(json.loads(self.bridge.stdout.read(length)))
        self.messages.put(None)

    def raw(self, data: bytes) -> None:
        self.bridge.stdin.write(data)
        self.bridge.stdin.flush()

    def body(self, body: bytes) -> None:
        """A message's body, with its header."""
        self.raw(b"Content-Length: %d\r\n\r\n%b" % (len(body), body))

    def send(self, message: dict) -> None:
        self.body(json.dumps({"jsonrpc": "2.0", **message}).encode())

    def notify(self, method: str, params: dict) -> None:
        self.send({"method": method, "params": params})

    def next(self) -> dict | None:
        """The next message of the bridge, None at the end of its output."""
        return self.messages.get(timeout=SECONDS)

    def until(self, wanted: Callable[[dict], bool]) -> dict:
        """The first message that is wanted; others before it are passed over."""
        end = time.monotonic() + SECONDS
        while time.monotonic() < end:
            message = self.next()
            assert message is not None, "the bridge ended"
            if wanted(message):
                return message
        raise AssertionError("no such message came")

    def ask(self, method: str, params: dict | None = None) -> dict:
        """A request, and the message that answers it."""
        self.requests += 1
        asked = self.requests
        self.send({"id": asked, "method": method} | ({} if params is None else {"params": params}))
        return self.until(lambda message: message.get("id") == asked and "method" not in message)

    def start(self, capabilities: dict | None = None) -> dict:
        """The first messages of a session; what the bridge says that it can do."""
        answer = self.ask(
            "initialize", {"capabilities": CAPABILITIES if capabilities is None else capabilities}
        )
        self.notify("initialized", {})
        return answer["result"]["capabilities"]

    def open(self, uri: str, text: str, version: int = 1) -> None:
        document = {"uri": uri, "languageId": "boogie", "version": version, "text": text}
        self.notify("textDocument/didOpen", {"textDocument": document})

    def change(self, uri: str, version: int, *changes: dict) -> None:
        self.notify(
            "textDocument/didChange",
            {"textDocument": {"uri": uri, "version": version}, "contentChanges": list(changes)},
        )

    def diagnostics(self, uri: str, version: int) -> list[dict]:
        """What is published of a version of a document, the last that comes of it before a lens is asked for."""

        def wanted(message: dict) -> bool:
            params = message.get("params", {})
            return (
                message.get("method") == "textDocument/publishDiagnostics"
                and params["uri"] == uri
                and params["version"] == version
            )

        return self.until(wanted)["params"]["diagnostics"]

    def end(self) -> int:
        """The end of the session; the bridge's status."""
        if self.bridge.poll() is None:
            try:
                self.ask("shutdown")
                self.send({"method": "exit"})
            except (OSError, AssertionError, queue.Empty):
                self.bridge.kill()
        status = self.bridge.wait(timeout=SECONDS)
        self.bridge.stdin.close()
        return status


def servers_of(bridge: subprocess.Popen) -> list[int]:
    """The processes that the bridge has started."""
    children = Path(f"/proc/{bridge.pid}/task").glob("*/children")
    return [int(word) for file in children for word in file.read_text().split()]


def kill_servers(bridge: subprocess.Popen) -> int:
    """Kills the bridge's servers; how many there were."""
    servers = servers_of(bridge)
    for server in servers:
        os.kill(server, signal.SIGKILL)
    return len(servers)


def check_time(test: unittest.TestCase, seconds: float) -> None:
    """An edit's diagnostics are to come within a second, on a machine that isn't busy with other work."""
    if seconds >= 1 and os.getloadavg()[0] > len(os.sched_getaffinity(0)):
        test.skipTest(f"the machine is busy: {seconds:.1f} seconds")
    test.assertLess(seconds, 1)


def place(message: dict) -> tuple[int, int, int, int]:
    """A diagnostic's range: line and column of its start and of its end."""
    start, end = message["range"]["start"], message["range"]["end"]
    return start["line"], start["character"], end["line"], end["character"]
