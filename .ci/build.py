"""Proves and builds bplserve with the Rattle kit's command `rt`, which must be on the PATH.

`rt ci` proves the crates beside each other, over a copy of the sources without what it would prove besides, wrong bodies
and crates of tests. The kit keeps what is proved, so a build that was stopped goes on. The first `rt ci` gives each crate
one processor; a second one, of the last crates, beside which nothing else is left to prove, may give them several. It
begins beside the last proof of the first.
Where a kit's `rt ci` takes no names and keeps nothing (rattle-kit-13b), one proves the whole copy.
"""
import glob
import os
import re
import shutil
import signal
import subprocess
import sys
import tempfile
import threading
import time
from pathlib import Path

TOP = os.path.dirname(os.path.dirname(os.path.realpath(__file__)))
NAME = "bplserve"
PROGRAM = os.path.join(TOP, "crates", NAME, "out", NAME)
BUILD_FAILED = 70
LAST = {"edit_server", NAME}  # one stands on the other, and both on all others
USUAL_COST = 0.6  # processor minutes of a crate that bench/costs.txt doesn't have
TRUSTED = 3  # minutes after which the pace of the proofs tells as much as the plan
MEMORY_EACH = 2000  # megabytes of a proof that runs beside others
DISK = 12000  # megabytes of free disk, below which the kit may not keep all


def tell(line):
    sys.stderr.write(f"bplserve: {line}\n")


def fail(name, said):
    """Ends with the first lines that were said of the crate, or else the last of all."""
    begin = said.index(f"== {name}\n") + 1 if f"== {name}\n" in said else -40
    sys.stderr.write("".join(said[begin:][:40]))
    tell(f"the build failed at {name}")
    sys.exit(BUILD_FAILED)


def rows(*path):
    """The lines of a table that aren't comments."""
    return [line for line in (row.partition("#")[0].strip() for row in Path(TOP, *path).open()) if line]


def below(name, stands_on, order):
    """Adds the crates that this one stands on, and itself, lowest first."""
    for dependency in stands_on[name]:
        if dependency not in order:
            below(dependency, stands_on, order)
    order.append(name)
    return order


def copy_crate(name, to):
    """Copies a crate without its wrong bodies and what was built of it."""
    shutil.copytree(os.path.join(TOP, "crates", name), to, ignore=shutil.ignore_patterns("out", "must-fail"))


class Build:
    """The crates below the program: what they cost, and what is proved of them."""

    def __init__(self, folder, is_kept):
        self.folder, self.is_kept, self.begun = folder, is_kept, time.time()
        self.lines = {row.split(":")[0].split()[0]: row for row in rows("crates.txt")}
        stands_on = {c: [d for d in row.split(":")[1].split() if d in self.lines] for c, row in self.lines.items()}
        self.crates = below(NAME, stands_on, [])
        costs = {row.split()[0]: float(row.split()[1]) for row in rows("bench", "costs.txt")}
        self.minutes = {name: costs.get(name, USUAL_COST) for name in self.crates}
        self.chain = {}  # the minutes of the longest chain of crates that begins with each
        for name in reversed(self.crates):
            above = [self.chain[c] for c in self.crates if name in stands_on[c]]
            self.chain[name] = self.minutes[name] + max(above, default=0)
        free = int(re.search(r"MemAvailable:\s+(\d+)", Path("/proc/meminfo").read_text())[1]) >> 10
        self.processors = len(os.sched_getaffinity(0))
        self.beside = max(1, min(self.processors, int(0.85 * free / MEMORY_EACH)))
        self.proved, self.is_built, self.jobs = set(), threading.Event(), []
        self.reckon_anew()

    def planned_left(self):
        """The minutes of the plan that are left."""
        lacking = [c for c in self.crates if c not in self.proved]
        return max([sum(self.minutes[c] for c in lacking) / self.beside] + [self.chain[c] for c in lacking])

    def reckon_anew(self):
        """Takes the pace of what is proved from now on."""
        self.planned = self.planned_left()
        self.since = self.noted = time.monotonic()

    def left(self):
        """The minutes that are left, as the crates usually cost, at the pace of those that were proved."""
        planned = self.planned_left()
        slowness = ((self.noted - self.since) / 60 + TRUSTED) / (self.planned - planned + TRUSTED)
        return max(1, slowness * planned - (time.monotonic() - self.noted) / 60)

    def tell_each_minute(self):
        while not self.is_built.wait(60):
            tell(f"{len(self.proved)} of {len(self.crates)} crates are proved, about {self.left():.0f} minutes left")

    def note(self, name, is_new):
        """Notes that a crate is proved, now or by an earlier run."""
        if name not in self.proved:
            self.proved.add(name)
            self.noted = time.monotonic()
            if not is_new:
                self.reckon_anew()
            tell(f"proved {name} ({len(self.proved)} of {len(self.crates)}), about {self.left():.0f} minutes left")

    def take(self, job):
        """Puts the program in its place, with the time at which the sources were copied."""
        job.send_signal(signal.SIGSTOP)  # so that it doesn't remove what it built
        copies = [f"{self.folder}/tmp/rt-copy-{job.pid}-*/repo", self.folder]
        made = [it for copy in copies for it in glob.glob(f"{copy}/crates/{NAME}/out/{NAME}")]
        shutil.copy(made[0], PROGRAM + ".new")
        os.utime(PROGRAM + ".new", (self.begun, self.begun))
        os.replace(PROGRAM + ".new", PROGRAM)
        self.is_built.set()

    def begin(self, names, beside):
        """Has `rt ci` prove these crates and all below, or the whole copy: so many beside each other, or as it chooses."""
        environment = {**os.environ, "TMPDIR": os.path.join(self.folder, "tmp"), "RT_JOBS": str(beside), "CI": ""}
        job = subprocess.Popen(["rt", "ci", *names], cwd=self.folder, env=environment, stdin=subprocess.DEVNULL,
                               stdout=subprocess.PIPE, stderr=subprocess.STDOUT, text=True, errors="replace")
        self.jobs.append(job)

    def follow(self, job, names):
        """Notes what it proves, till it ends or the program is built. One that doesn't prove the program has the next, which
        does, begin once a single crate is left: a start takes most of a minute, and waits for what another proves."""
        said = []
        while not self.is_built.is_set() and (line := job.stdout.readline()):
            said.append(line)
            told = re.match(r"rt: (\w+) (proved|is kept|NOT PROVED)\b", line)
            if told and told[2] == "NOT PROVED":
                fail(told[1], said)
            if told:
                self.note(told[1], told[2] == "proved")
            if told and told[1] == NAME:
                self.take(job)
            if NAME not in names and len(names - self.proved) <= 1 and job is self.jobs[-1]:
                self.begin([NAME], "")
        if not self.proved.issuperset(names):
            fail(NAME, said)

    def prove(self):
        """Has all proved, the program last."""
        first = [c for c in self.crates if c not in LAST] if self.is_kept else []
        try:
            self.begin(first, self.beside)
            self.follow(self.jobs[0], set(first or [NAME]))
            if first:
                self.follow(self.jobs[1], {NAME})
        finally:
            for job in self.jobs:
                job.kill()
                job.wait()

    def run(self):
        on = f"about {self.left():.0f} minutes on {self.processors} processors"
        tell(f"proving and building it, once: {len(self.crates)} crates, {on}")
        for name in self.crates:
            copy_crate(name, os.path.join(self.folder, "crates", name))
        Path(self.folder, "crates.txt").write_text("".join(self.lines[name] + "\n" for name in self.crates))
        shutil.copy(os.path.join(TOP, "HANDLES"), self.folder)
        os.mkdir(os.path.join(self.folder, "tmp"))
        threading.Thread(target=self.tell_each_minute, daemon=True).start()
        self.prove()
        tell(f"built in {(time.time() - self.begun) / 60:.0f} minutes")


def keeps_crates(kept):
    """Whether `rt ci` takes the names of crates and keeps what it proves of them."""
    told = subprocess.run(["rt", "help"], stdin=subprocess.DEVNULL, stdout=subprocess.PIPE, stderr=subprocess.STDOUT, text=True)
    return kept.name == "rattle-kept" or re.search(r"^\s*rt ci \[", told.stdout, re.M) is not None


def build():
    """Builds in a folder that goes again, also where the build is stopped; a killed one leaves it to the next."""
    rt = shutil.which("rt") or fail(NAME, ["there is no `rt` on the PATH, the command of the Rattle kit\n"])
    for number in (signal.SIGTERM, signal.SIGHUP, signal.SIGINT):
        signal.signal(number, lambda number, frame: sys.exit(128 + number))
    # the kit keeps proofs beside its own folder; the build's is on that disk, where they are linked and not copied
    beside = Path(rt).resolve().parent.parent.parent
    kept = beside / "rattle-kept" if (beside / "rattle-kept").is_dir() else beside
    is_kept = keeps_crates(kept) and os.access(kept, os.W_OK) and shutil.disk_usage(kept).free >> 20 >= DISK
    os.makedirs(os.path.dirname(PROGRAM), exist_ok=True)
    places = [tempfile.gettempdir(), os.path.dirname(PROGRAM)]
    for old in [old for place in places for old in glob.glob(os.path.join(place, "bplserve-build-*-*"))]:
        if not os.path.exists("/proc/" + old.rsplit("-", 2)[1]):
            shutil.rmtree(old, ignore_errors=True)
    place = next((it for it in places if os.stat(it).st_dev == os.stat(kept).st_dev), places[0])
    folder = tempfile.mkdtemp(prefix=f"bplserve-build-{os.getpid()}-", dir=place)
    try:
        Build(folder, is_kept).run()
    finally:
        shutil.rmtree(folder, ignore_errors=True)
