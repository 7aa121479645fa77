#!/usr/bin/env python3
"""Writes a program of about so many bytes to standard output.

    texts.py declarations 1000000    many declarations of each form, 50 bytes each on the average
    texts.py procedure 1000000       one procedure with a long body
    texts.py functions 1000000       functions that each apply the one before
    texts.py functions_backwards 1000000   the same, each before the one that it applies
    texts.py synonyms 1000000        types that each stand for the one before
    texts.py cycle 100000            functions that each apply the next, the last one itself
    texts.py constants 1000000       constants and axioms that join each to the next
    texts.py calls 1000000           procedures that each call the two before
    texts.py variables 1000000       one procedure with many locals, each set and used once
"""
import sys


def declarations(k):
    """Fourteen declarations of each form, which use those of this turn and of the turn before."""
    before = max(k - 1, 0)
    return f"""const c{k}: int;
axiom c{k} <= c{before} + 1;
type t{k} = [int] int;
function f{k}(x: int): int {{ x + c{k} }}
function h{k}(m: t{k}): int {{ m[f{k}(0)] }}
var g{k}: int where g{k} >= 0;
const d{k}, e{k}: bool;
axiom d{k} ==> e{k};
const k{k}: t{k};
axiom h{k}(k{k}) == 0;
var u{k}: bool, v{k}: bool;
const s{k}, r{k}, q{k}: int;
function n{k}(x: bool): bool {{ !x }}
procedure P{k}(a: int) returns (r: int); modifies g{k};
procedure Q{k}(a: int) returns (r: int) requires a > 0; modifies g{k};
{{ r := f{k}(a); if (r < a) {{ g{k} := r; }} call r := P{k}(r); assert r >= c{before}; }}
"""


def functions(k):
    return f"function f{k}(x: int): int {{ f{k - 1}(x + 1) }}\n" if k else "function f0(x: int): int { x }\n"


def functions_backwards(k):
    return f"function f{k + 1}(x: int): int {{ f{k}(x + 1) }}\n"


def synonyms(k):
    return f"type t{k} = t{k - 1};\n" if k else "type t0 = [int] int;\n"


def constants(k):
    return f"const c{k}: int;\naxiom c{k} <= c{max(k - 1, 0)} + 1;\n"


def calls(k):
    return f"procedure P{k}(a: int) returns (r: int) {{ call r := P{max(k - 1, 0)}(a); call r := P{max(k - 2, 0)}(r); }}\n"


def statements(k):
    """A part of the body of one procedure over four locals, a map and a global."""
    return f"""  x := y + {k};
  if (x < y) {{ z := x - y; m[z] := {k}; }} else {{ havoc z; }}
  while (z < {k}) invariant z <= {k} + x; {{ z := z + 1; if (*) {{ break; }} }}
  assert m[x] == {k} ==> z >= {k} && old(g) == g;
  assume (forall k: int :: {{ m[k] }} 0 <= k && k < {k} ==> m[k] <= x);
"""


HEAD = """var g: int;
procedure Long(n: int) returns (r: int)
  requires n > 0;
  modifies g;
  ensures r >= n;
{
"""


def until(size, part, head="", tail=""):
    """The head, parts 0, 1 .. to so many bytes, and the tail."""
    parts, length, k = [head], len(head) + len(tail), 0
    while length < size:
        parts.append(part(k))
        length += len(parts[-1])
        k += 1
    parts.append(tail)
    return "".join(parts)


def variables(size):
    count = max(size // 40, 1)
    locals_ = ", ".join(f"v{k}" for k in range(count))
    body = "".join(f"  v{k} := v{max(k - 1, 0)} + {k};\n" for k in range(count))
    return f"procedure Many() {{\n  var {locals_}: int;\n{body}}}\n"


def text(form, size):
    if form in ("functions_backwards", "cycle"):
        lines = until(size, functions_backwards).splitlines(True)
        last = "function f0(x: int): int { x }\n" if form != "cycle" else "function f0(x: int): int { f0(x) }\n"
        return "".join(reversed([last] + lines))
    if form == "synonyms":
        return until(size, synonyms)
    if form == "declarations":
        return until(size, declarations)
    if form == "functions":
        return until(size, functions)
    if form == "constants":
        return until(size, constants)
    if form == "calls":
        return until(size, calls)
    if form == "variables":
        return variables(size)
    if form == "procedure":
        return until(size, statements, HEAD + "  var x, y, z: int;\n  var m: [int] int;\n  r := n;\n", "}\n")
    raise SystemExit(__doc__)


if __name__ == "__main__":
    if len(sys.argv) != 3:
        raise SystemExit(__doc__)
    sys.stdout.write(text(sys.argv[1], int(sys.argv[2])))
