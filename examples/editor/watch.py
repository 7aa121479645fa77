#!/usr/bin/env python3
"""Keeps a Boogie program open in `bplserve serve` while it is being edited.

    examples/editor/watch.py [--once] [--turns N] [--workers N] [--server COMMAND] FILE

Opens FILE in a session, and after each change of FILE sends the declarations that changed. For each
assertion that isn't proved, and for the program's fault where it has one, it writes a line

    FILE(LINE,COL): Error: ...

with FILE's own lines and columns, counted from 1 and in bytes: an error list that knows this form (Vim's
with `set errorformat=%f(%l\\,%c):\\ %m`) can jump to them. Each round ends with a line in parentheses.
"""

import argparse
import sys
import time
from pathlib import Path

from bplclient import program
from bplclient.findings import Program, Report
from bplclient.lines import lines_of
from bplclient.session import Options, ServerEnded, Session


def told(report: Report) -> str:
    """The last line of a round."""
    proved = sum(each.proved for each in report.verdicts)
    goals = sum(each.goals for each in report.verdicts)
    return f"({proved} of {goals} proved)"


def round_of(session: Session, file: str, source: bytes) -> bool:
    """Sends the file as it is now and writes what comes of it; tells whether all is proved."""
    wanted = Program(source)
    wrong = session.send(wanted)
    report = Report([wrong], []) if wrong else session.report()
    for line in lines_of(file, source, report.findings):
        print(line)
    print("(not opened)" if wrong else told(report), flush=True)
    return not report.findings


def main() -> int:
    parser = argparse.ArgumentParser(description=__doc__.split("\n")[0])
    parser.add_argument("file")
    parser.add_argument("--once", action="store_true", help="one round; status 1 where not all is proved")
    program.add_options(parser)
    program.add_worker_option(parser)
    words = parser.parse_args()
    session = Session(Options(words.server, words.turns, words.workers))
    seen = None
    while True:
        source = Path(words.file).read_bytes()
        if source != seen:
            seen = source
            proved = round_of(session, words.file, source)
            if words.once:
                session.end()
                return 0 if proved else 1
        time.sleep(0.2)


if __name__ == "__main__":
    try:
        sys.exit(main())
    except (OSError, ServerEnded) as error:
        sys.exit(f"watch.py: {error}")
    except KeyboardInterrupt:
        pass
