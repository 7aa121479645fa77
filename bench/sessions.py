#!/usr/bin/env python3
"""Times sessions: a program of 1,000 procedures is opened and reported, then one procedure is edited and
the program reported again. Prints the seconds of each, and how many times the edit with its report
goes into the whole. Only the procedure's body is read, but each goal's key is compared and its line
written again, so this is told for programs of short proofs and of longer ones. Nothing is compared: it
is no test.
`bench/sessions.py COUNT` takes as many procedures, `bench/sessions.py COUNT WORD` those programs alone
whose name has the word. BPLSERVE names another server than the one that is built here.
"""
import json
import os
import subprocess
import sys
import time

TOP = os.path.dirname(os.path.dirname(os.path.realpath(__file__)))
SERVER = os.environ.get("BPLSERVE", os.path.join(TOP, "bplserve"))

# a sum, with nothing to prove but arithmetic
COUNTING = """procedure Counting%d(x: int) returns (r: int)
  requires 0 <= x;
  ensures r >= x;
{
  var i: int;
  i := 0;
  r := x;
  while (i < 7)
    invariant 0 <= i && i <= 7;
    invariant r == x + i;
  {
    i := i + 1;
    r := r + 1;
  }
  assert r + %d >= x + 7;
}
"""

# a search for the greatest value of a map, with a quantified invariant, and what holds behind it
GREATEST = """procedure Greatest%d(m: [int]int, n: int) returns (x: int)
  requires n >= 1;
  ensures (forall k: int :: {m[k]} 0 <= k && k < n ==> m[k] <= x);
{
  var i: int;
  x := m[0];
  i := 1;
  while (i < n)
    invariant 1 <= i && i <= n;
    invariant (forall k: int :: {m[k]} 0 <= k && k < i ==> m[k] <= x);
  {
    if (x < m[i]) {
      x := m[i];
    }
    i := i + 1;
  }
  assert x + %d >= m[0];
}
"""

# a binary search, with two quantified invariants and an early return
SEARCH = """procedure Search%d(a: [int]int, n: int, key: int) returns (at: int)
  requires 0 <= n;
  requires (forall i, j: int :: {a[i], a[j]} 0 <= i && i <= j && j < n ==> a[i] <= a[j]);
  ensures 0 <= at ==> at < n && a[at] == key;
  ensures at < 0 ==> (forall k: int :: {a[k]} 0 <= k && k < n ==> a[k] != key);
{
  var lo, hi, mid: int;
  lo, hi := 0, n;
  while (lo < hi)
    invariant 0 <= lo && lo <= hi && hi <= n;
    invariant (forall k: int :: {a[k]} 0 <= k && k < lo ==> a[k] < key);
    invariant (forall k: int :: {a[k]} hi <= k && k < n ==> key < a[k]);
  {
    havoc mid;
    assume lo <= mid && mid < hi;
    if (a[mid] < key) { lo := mid + 1; }
    else if (key < a[mid]) { hi := mid; }
    else { at := mid; return; }
  }
  at := 0 - 1;
  assert at < %d;
}
"""

# a map reversed in place, with three quantified invariants over two writes
REVERSE = """procedure Reverse%d(a: [int]int, n: int) returns (b: [int]int)
  requires 0 <= n;
  ensures (forall k: int :: {b[k]} 0 <= k && k < n ==> b[k] == a[n - 1 - k]);
{
  var i, j: int;
  b := a;
  i, j := 0, n - 1;
  while (i < j)
    invariant 0 <= i && i + j == n - 1 && i <= j + 1;
    invariant (forall k: int :: {b[k]} 0 <= k && k < i ==> b[k] == a[n - 1 - k]);
    invariant (forall k: int :: {b[k]} j < k && k < n ==> b[k] == a[n - 1 - k]);
    invariant (forall k: int :: {b[k]} i <= k && k <= j ==> b[k] == a[k]);
  {
    b := b[i := b[j]][j := b[i]];
    i, j := i + 1, j - 1;
  }
  assert n + %d >= 0;
}
"""

# a map sorted by two loops, one in the other
SORT = """procedure Sort%d(a: [int]int, n: int) returns (b: [int]int)
  requires 0 <= n;
  ensures (forall k, l: int :: {b[k], b[l]} 0 <= k && k < l && l < n ==> b[k] <= b[l]);
{
  var i, j, m: int;
  b, i := a, 0;
  while (i < n)
    invariant 0 <= i && i <= n;
    invariant (forall k, l: int :: {b[k], b[l]} 0 <= k && k < i && k < l && l < n ==> b[k] <= b[l]);
  {
    m, j := i, i + 1;
    while (j < n)
      invariant 0 <= i && i <= m && m < j && j <= n;
      invariant (forall k: int :: {b[k]} i <= k && k < j ==> b[m] <= b[k]);
    {
      if (b[j] < b[m]) { m := j; }
      j := j + 1;
    }
    b, i := b[i := b[m]][m := b[i]], i + 1;
  }
  assert n + %d >= 0;
}
"""

# a long straight part, each assertion behind those before it
STEP = "  x := x + 1;\n  assert x > y + %d;\n"
STRAIGHT = (
    "procedure Straight%d(y: int) returns (x: int)\n{\n  x := y;\n"
    + "".join(STEP % k for k in range(24))
    + "  assert x + %d > y;\n}\n"
)

PROGRAMS = [
    ("counting", "Counting", COUNTING),
    ("greatest", "Greatest", GREATEST),
    ("binary search", "Search", SEARCH),
    ("reverse", "Reverse", REVERSE),
    ("sort", "Sort", SORT),
    ("straight", "Straight", STRAIGHT),
]


def ask(server, request):
    """The reply to a request, and the seconds until it is there."""
    begun = time.monotonic()
    server.stdin.write(json.dumps(request, separators=(",", ":")).encode() + b"\n")
    server.stdin.flush()
    reply = json.loads(server.stdout.readline())
    return reply, time.monotonic() - begun


def both(server, request):
    """The seconds of a request and of the report after it, and the report's lines."""
    accepted, first = ask(server, request)
    report, second = ask(server, {"op": "report"})
    return accepted, report["report"], first, second


def session(name, head, text, count):
    """One program: whether its report has as many lines after the edit as before it."""
    program = "".join(text % (k, k) for k in range(count))
    put = {"name": head + str(count // 2), "text": text % (count // 2, count + 1)}
    with subprocess.Popen([SERVER, "serve"], stdin=subprocess.PIPE, stdout=subprocess.PIPE) as server:
        opened, lines, opening, proving = both(server, {"op": "open", "text": program})
        edited, again, editing, settling = both(server, {"op": "edit", "put": [put]})
        ask(server, {"op": "quit"})
    correct = sum(line.endswith(" correct") for line in lines)
    print("%s: %d procedures, %d goals, %d correct" % (name, count, opened["goals"], correct))
    print("  open %.3f s, report %.3f s" % (opening, proving))
    print("  edit of one %.3f s (%d rebuilt), report %.3f s" % (editing, edited["rebuilt"], settling))
    print("  the whole takes %.0f times as long" % ((opening + proving) / (editing + settling)), flush=True)
    return len(again) == len(lines)


def main(count, word):
    chosen = [it for it in PROGRAMS if word in it[0]]
    return 0 if all([session(*it, count) for it in chosen]) else 1


sys.exit(main(int(sys.argv[1]) if len(sys.argv) > 1 else 1000, sys.argv[2] if len(sys.argv) > 2 else ""))
