"""A document that is open in the editor, and the thread in which a server of its own answers for it.

Texts that come while one is being answered are taken together: the thread goes on with the newest. Where
the server has workers, which prove in the background, it is asked how far they are, and for its report
when nothing is pending; so a newer text is sent at once. Without workers the server proves while it makes
its report, and nothing else is answered until then: the report is asked for when no newer text has come
for a moment, and a text that comes later waits for it.
"""

import sys
import threading
import traceback

from bplclient.findings import Finding, Program, Report, Verdict
from bplclient.session import Options, ServerEnded, Session

from .client import Client
from .text import Text, Version

# Without workers: how many seconds without a newer text come before the report.
QUIET = 0.15
# With workers: after how many seconds the server is first asked how far they are, and at last.
SOONEST, LATEST = 0.01, 0.25
# How often a text is tried where the server ends with it.
TRIES = 2
# After how many seconds the editor is told that the server hasn't started yet.
PATIENCE = 5


class Document:
    """A document, its newest text, and what was last said of it."""

    def __init__(self, uri: str, version: Version, options: Options, client: Client):
        self.uri = uri
        self.options = options
        self.client = client
        self.changed = threading.Condition()
        self.newest = version
        self.closed = False
        self.session: Session | None = None
        self.cut: tuple[Text, Program] | None = None
        self.verdicts: list[Verdict] = []
        self.shows_fault = False
        self.thread = threading.Thread(target=self._run, daemon=True)
        self.thread.start()

    def put(self, version: Version) -> None:
        """The document has a newer text."""
        with self.changed:
            self.newest = version
            self.changed.notify()

    def close(self) -> None:
        """The document is closed: nothing more is told of it, and its server ends."""
        with self.changed:
            self.closed = True
            self.changed.notify()
            if self.session:
                self.session.kill()

    def _run(self) -> None:
        answered = None
        while (version := self._after(answered)) is not None:
            try:
                self._answer(version)
            except Exception as error:
                # a mistake of this program: the next text may be answered all the same
                traceback.print_exc(file=sys.stderr)
                self.client.warn(f"bpl-lsp: {type(error).__name__}: {error}")
            answered = version
        if self.session:
            self.session.end()

    def _after(self, answered: Version | None) -> Version | None:
        """The newest text, when it is another than the one that was answered; None when the document closes."""
        with self.changed:
            self.changed.wait_for(lambda: self.closed or self.newest is not answered)
            return None if self.closed else self.newest

    def _is_left(self, version: Version) -> bool:
        return self.closed or self.newest is not version

    def _is_left_within(self, version: Version, seconds: float) -> bool:
        """Whether a newer text comes, or the document is closed, within so many seconds."""
        with self.changed:
            return self.changed.wait_for(lambda: self._is_left(version), timeout=seconds)

    def _answer(self, version: Version) -> None:
        """Tells the editor what is wrong with a text. A server that ends is followed by a new one."""
        for left in reversed(range(TRIES)):
            try:
                return self._prove(version)
            except ServerEnded as ended:
                self.session = None
                self.client.progress_ended(self.uri)
                if self.closed:
                    return None
                if not left:
                    self.client.warn(f"bplserve: {ended}; the next change is tried with a new one")
                    self._publish(version, [Finding(0, 0, f"not checked: {ended}", "server")])
        return None

    def _prove(self, version: Version) -> None:
        program = Program(version.text.source)
        self.cut = (version.text, program)
        session = self._session()
        wrong = session.send(program)
        if wrong is not None:
            self._publish(version, [wrong], is_fault=True)
            return
        if self.shows_fault:
            self._publish(version, [])
        if self._may_report(session, version):
            self._tell(version, session.report())

    def _session(self) -> Session:
        """The server; a new one where there is none, or where the last one ended."""
        if self.session is None:
            told = threading.Timer(
                PATIENCE, self.client.warn, ["bplserve: the server hasn't started; is it being built?"]
            )
            told.daemon = True
            told.start()
            try:
                session = Session(self.options)
            finally:
                told.cancel()
            with self.changed:
                self.session = session
                if self.closed:
                    session.kill()
        return self.session

    def _may_report(self, session: Session, version: Version) -> bool:
        """Waits until the report is to be asked for; false where a newer text comes first."""
        if not session.workers:
            return not self._is_left_within(version, QUIET)
        pause = SOONEST
        pending, goals = session.pending()
        while pending and not self._is_left_within(version, pause):
            self.client.progress(self.uri, goals - pending, goals)
            pause = min(LATEST, pause * 1.5)
            pending, goals = session.pending()
        self.client.progress_ended(self.uri)
        return not pending

    def _tell(self, version: Version, report: Report) -> None:
        if self._is_left(version):
            return
        self.verdicts = report.verdicts
        self._publish(version, report.findings)
        self.client.verdicts_changed()

    def _publish(self, version: Version, findings: list[Finding], is_fault: bool = False) -> None:
        with self.changed:
            if not self._is_left(version):
                self.client.publish(self.uri, version, findings)
                self.shows_fault = is_fault
