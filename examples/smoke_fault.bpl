// A program with a fault has no points.
procedure T(x: int) { assert y; }
