// The last branches, the else and the loop are never taken.
procedure T(x: int) {
  if (x > 0) { assert true; } else if (x > 1) { assert true; } else if (x < 5) { return; } else { assert x == 0; }
  while (x > 10) { assert false; }
}
