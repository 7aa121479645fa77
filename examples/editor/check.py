#!/usr/bin/env python3
"""Checks Boogie programs, for scripts and Makefiles, with lines in Boogie's form.

    examples/editor/check.py [--turns N] [--server COMMAND] FILE ..

For each assertion that isn't proved, and for a program's fault, a line

    FILE(LINE,COL): Error: ...

and a line `FILE(LINE,COL): Related location: ...` for the clause of a callee; lines and columns are counted
from 1, columns in bytes. The last line tells how many procedures are correct. The status is 0 where all
procedures of all files are correct, and else 1.
"""

import argparse
import subprocess
import sys
from pathlib import Path

from bplclient import program
from bplclient.findings import Finding, Program, Report
from bplclient.lines import lines_of

# The statuses of `check` with which its output says something of the program.
ALL_PROVED, NOT_ALL, REFUSED = 0, 1, 6


def report_of(source: bytes, command: list[str]) -> Report:
    """What `bplserve check` says of a text."""
    checked = subprocess.run(command, input=source, stdout=subprocess.PIPE, check=False)
    lines = checked.stdout.decode(errors="replace").split("\n")[:-1]
    if checked.returncode in (ALL_PROVED, NOT_ALL):
        return Program(source).report(lines)
    fault = Program(source).fault_line(lines[0]) if checked.returncode == REFUSED and lines else None
    return Report([fault or Finding(0, 0, f"not checked: status {checked.returncode}", "server")], [])


def checked(file: str, command: list[str]) -> Report:
    """Checks a file and writes its lines."""
    try:
        source = Path(file).read_bytes()
        report = report_of(source, command)
    except OSError as error:
        source, report = b"", Report([Finding(0, 0, str(error), "file")], [])
    for line in lines_of(file, source, report.findings):
        print(line, flush=True)
    return report


def main() -> int:
    parser = argparse.ArgumentParser(description=__doc__.split("\n")[0])
    parser.add_argument("files", nargs="+", metavar="FILE")
    program.add_options(parser)
    words = parser.parse_args()
    command = program.command(words.server, "check", words.turns)
    reports = [checked(file, command) for file in words.files]
    verdicts = [verdict for report in reports for verdict in report.verdicts]
    print(f"{sum(verdict.correct for verdict in verdicts)} of {len(verdicts)} procedures are correct")
    return 1 if any(report.findings for report in reports) else 0


if __name__ == "__main__":
    try:
        sys.exit(main())
    except KeyboardInterrupt:
        sys.exit(1)
