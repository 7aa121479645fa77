"""A server that has one text open."""

import json
import subprocess
from dataclasses import dataclass

from . import program
from .findings import Finding, Program, Report
from .source import edit_of, text_of


class ServerEnded(Exception):
    """The server ended, couldn't be started, or wrote what is no reply."""


@dataclass(frozen=True)
class Options:
    """How servers are started."""

    server: str
    turns: int
    workers: int


class Session:
    """A server, and the program that it has open."""

    def __init__(self, options: Options):
        try:
            self.workers = options.workers if program.takes_workers(options.server, options.workers) else 0
            words = program.command(options.server, "serve", options.turns)
            if self.workers:
                words += ["--workers", str(self.workers)]
            self.process = subprocess.Popen(words, stdin=subprocess.PIPE, stdout=subprocess.PIPE)
        except OSError as error:
            raise ServerEnded(str(error)) from error
        self.open: Program | None = None

    def ask(self, request: dict) -> dict:
        """The reply to a request."""
        line = json.dumps(request, ensure_ascii=False).encode() + b"\n"
        try:
            self.process.stdin.write(line)
            self.process.stdin.flush()
            reply = json.loads(self.process.stdout.readline())
        except (OSError, ValueError) as error:
            # the pipe is broken, or the last line is empty or cut off
            raise ServerEnded(self.end()) from error
        if not isinstance(reply, dict):
            raise ServerEnded(self.end())
        return reply

    def send(self, wanted: Program) -> Finding | None:
        """Makes the server's program the wanted one; where it is refused, what is wrong with it."""
        request = edit_of(self.open.declared, wanted.declared) if self.open else None
        if request and not request["put"] and not request["drop"]:
            self.open = wanted
            return None
        reply = self.ask(request or opening(wanted))
        if request and "error" in reply:
            # the server tells the first fault of the whole text where it isn't cut as this client does
            reply = self.ask(opening(wanted))
        if "version" in reply:
            self.open = wanted
            return None
        return wanted.fault(reply) if "fault" in reply else wanted.refusal(str(reply.get("error")))

    def pending(self) -> tuple[int, int]:
        """How many goals have no answer yet, and how many there are."""
        reply = self.ask({"op": "status"})
        pending = reply.get("pending", 0)
        return pending, pending + reply.get("done", 0)

    def report(self) -> Report:
        """What the server says of the program that it has open; it proves what has no answer yet."""
        opened = self.open or Program(b"")
        reply = self.ask({"op": "report"})
        if "report" not in reply:
            return Report([opened.refusal(str(reply.get("error")))], [])
        return opened.report(reply["report"])

    def kill(self) -> None:
        """Ends the server in the midst of an answer; may be called by another thread."""
        self.process.kill()

    def end(self) -> str:
        """Ends the server where it hasn't ended; what is to be said of its end."""
        for pipe in (self.process.stdin, self.process.stdout):
            try:
                pipe.close()
            except OSError:
                pass
        try:
            status = self.process.wait(timeout=1)
        except subprocess.TimeoutExpired:
            self.process.kill()
            status = self.process.wait()
        return f"the server ended with status {status}"


def opening(wanted: Program) -> dict:
    """The request that opens a text."""
    return {"op": "open", "text": text_of(wanted.source)}
