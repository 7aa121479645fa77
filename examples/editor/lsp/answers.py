"""What the server says, in the protocol's form."""

import time

from bplclient.findings import Finding, Program, Verdict

from .text import Text
from .wire import Writer

ERROR = 1
SOURCE = "bplserve"
# Of how many seconds of proving nothing is shown.
SHORT = 0.5


def diagnostic(text: Text, uri: str, finding: Finding, with_related: bool) -> dict:
    """A finding as a diagnostic. An editor that doesn't take related places has them in the message."""
    made = {
        "range": text.range(finding.start, finding.end),
        "severity": ERROR,
        "source": SOURCE,
        "code": finding.code,
        "message": finding.message,
    }
    related = [(text.range(each.start, each.end), each.message) for each in finding.related]
    if related and with_related:
        made["relatedInformation"] = [
            {"location": {"uri": uri, "range": where}, "message": message} for where, message in related
        ]
    elif related:
        lines = [f"line {where['start']['line'] + 1}: {message}" for where, message in related]
        made["message"] = "\n".join([finding.message, *lines])
    return made


def title(verdict: Verdict) -> str:
    """What stands over a procedure."""
    return "correct" if verdict.correct else f"{verdict.proved} of {verdict.goals} goals proved"


def lenses(text: Text, program: Program, verdicts: list[Verdict]) -> list[dict]:
    """A code lens over each procedure, where its body's declaration begins in this text."""
    found = []
    for verdict in verdicts:
        body = program.body_of(verdict.procedure)
        if body is not None:
            where = text.range(body.start, body.start)
            found.append({"range": where, "command": {"title": title(verdict), "command": ""}})
    return found


class Progress:
    """Tells the editor how many goals are answered, where it takes that, and where it lasts."""

    def __init__(self, writer: Writer, token: str, taken: bool):
        self.writer = writer
        self.token = token
        self.taken = taken
        self.begun = False
        self.since = time.monotonic()

    def tell(self, answered: int, goals: int) -> None:
        """So many goals are answered. A progress begins when it is told later than `SHORT` seconds."""
        if not self.taken or time.monotonic() - self.since < SHORT:
            return
        share = {"message": f"{answered} of {goals} goals", "percentage": 100 * answered // max(1, goals)}
        if not self.begun:
            self.begun = True
            self.writer.ask("window/workDoneProgress/create", {"token": self.token})
            self._send({"kind": "begin", "title": "proving", **share})
        else:
            self._send({"kind": "report", **share})

    def end(self) -> None:
        """The progress ends, where it began."""
        if self.begun:
            self._send({"kind": "end"})

    def _send(self, value: dict) -> None:
        self.writer.notify("$/progress", {"token": self.token, "value": value})
