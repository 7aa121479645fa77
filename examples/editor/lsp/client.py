"""The editor, as the documents' threads tell it what they find."""

import itertools
from typing import Any

from bplclient.findings import Finding

from .answers import Progress, diagnostic
from .text import Version
from .wire import Writer

WARNING = 2


class Client:
    """The editor, and what it says that it can do."""

    def __init__(self, writer: Writer):
        self.writer = writer
        self.capabilities: Any = None
        self.progresses: dict[str, Progress] = {}
        self.tokens = itertools.count(1)

    def can(self, path: str) -> bool:
        """Whether the editor says that it can do something; names with points between."""
        found = self.capabilities
        for name in path.split("."):
            found = found.get(name) if isinstance(found, dict) else None
        return found is True

    def publish(self, uri: str, version: Version, findings: list[Finding]) -> None:
        """What is wrong with a text of a document."""
        related = self.can("textDocument.publishDiagnostics.relatedInformation")
        made = [diagnostic(version.text, uri, finding, related) for finding in findings]
        params: dict[str, Any] = {"uri": uri, "diagnostics": made}
        if version.number is not None and self.can("textDocument.publishDiagnostics.versionSupport"):
            params["version"] = version.number
        self.writer.notify("textDocument/publishDiagnostics", params)

    def verdicts_changed(self) -> None:
        """What stands over procedures has changed."""
        if self.can("workspace.codeLens.refreshSupport"):
            self.writer.ask("workspace/codeLens/refresh")

    def progress(self, uri: str, answered: int, goals: int) -> None:
        """So many goals of a document are answered."""
        if uri not in self.progresses:
            taken = self.can("window.workDoneProgress")
            self.progresses[uri] = Progress(self.writer, f"bpl-lsp/{next(self.tokens)}", taken)
        self.progresses[uri].tell(answered, goals)

    def progress_ended(self, uri: str) -> None:
        """A document's goals are answered, or no longer asked for."""
        if uri in self.progresses:
            self.progresses.pop(uri).end()

    def log(self, message: str) -> None:
        """A line in the editor's log."""
        self.writer.notify("window/logMessage", {"type": WARNING, "message": message})

    def warn(self, message: str) -> None:
        """A line that the editor shows."""
        self.writer.notify("window/showMessage", {"type": WARNING, "message": message})
