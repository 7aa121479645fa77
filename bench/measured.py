"""Small programs that are measured: each is proved and built by the Rattle kit's command `rt` over the crates
of this repository, whose proofs it takes from their out/ folders where they were checked before.
"""
import os
import shutil
import subprocess
import sys

TOP = os.path.dirname(os.path.dirname(os.path.realpath(__file__)))


def left_out(at, names):
    """Of a crate's out/ only its library is wanted."""
    return [it for it in names if it != "rlib"] if os.path.basename(at) == "out" else []


def workspace(folder, name, stands_on, program, proofs=None):
    """A copy of the crates, with the measured program and what its proof needs; the program's own folder."""
    crates = os.path.join(folder, "crates")
    shutil.copytree(os.path.join(TOP, "crates"), crates, ignore=left_out)
    own = os.path.join(crates, name)
    os.makedirs(os.path.join(own, "src"))
    os.mkdir(os.path.join(folder, ".git"))
    shutil.copy(os.path.join(TOP, "HANDLES"), folder)
    with open(os.path.join(TOP, "crates.txt")) as lines, open(os.path.join(folder, "crates.txt"), "w") as all_crates:
        all_crates.write(lines.read() + f"{name}: {stands_on}\n")
    with open(os.path.join(own, "src", "main.rt"), "w") as source:
        source.write(program)
    for file, text in (proofs or {}).items():
        at = os.path.join(own, "proofs", file)
        os.makedirs(os.path.dirname(at), exist_ok=True)
        with open(at, "w") as proof:
            proof.write(text)
    return own


def build(own, word):
    """Proves, builds and runs the program in its folder once, with this word; the file."""
    if subprocess.run(["rt", "run", "--", word], cwd=own, stdin=subprocess.DEVNULL, stdout=sys.stderr).returncode:
        raise SystemExit("the build failed")
    return os.path.join(own, "out", os.path.basename(own))


def measure(program, word, path=os.devnull):
    """Seconds of a processor, the most memory in MB, and what the program said of this input."""
    with open(path, "rb") as given:
        job = subprocess.Popen([program, word], stdin=given, stdout=subprocess.PIPE)
        said = job.stdout.read().decode().strip()
        _, status, used = os.wait4(job.pid, 0)
        job.returncode = status
    return used.ru_utime + used.ru_stime, used.ru_maxrss // 1024, said or f"status {status}"
