"""Which program is the server, and which words it takes."""

import argparse
import os
import shlex
import subprocess
from functools import cache
from pathlib import Path

TOP = Path(__file__).resolve().parents[3]


def default_server() -> str:
    """The program that BPLSERVE names, or else the one at the top of the repository."""
    return shlex.quote(os.environ.get("BPLSERVE") or str(TOP / "bplserve"))


def add_options(parser: argparse.ArgumentParser) -> None:
    """The options that each client takes."""
    parser.add_argument("--turns", type=int, default=20000, help="turns of the search for each goal")
    parser.add_argument(
        "--server", default=default_server(), help="the program, and further words before its own"
    )


def add_worker_option(parser: argparse.ArgumentParser) -> None:
    """The option of the clients that keep a session."""
    parser.add_argument(
        "--workers",
        type=int,
        default=min(64, len(os.sched_getaffinity(0))),
        help="threads that prove in the background, where the server takes them; as many as processors",
    )


def command(server: str, mode: str, turns: int) -> list[str]:
    """The words that start the server in a mode."""
    return [*shlex.split(server), mode, "--turns", str(turns)]


@cache
def takes_workers(server: str, workers: int) -> bool:
    """Whether the server takes so many workers: a session without requests ends well, and words that are no
    command with status 2. Waits for a build, where the server is built first."""
    words = [*shlex.split(server), "serve", "--workers", str(workers)]
    asked = subprocess.run(words, stdin=subprocess.DEVNULL, stdout=subprocess.DEVNULL, check=False)
    if asked.returncode not in (0, 2):
        raise OSError(f"the server ended with status {asked.returncode}")
    return asked.returncode == 0
