// Increment again, with an assertion that x == 1 breaks.
procedure P() {
  var x: int;
  assume x > 0;
  x := x + 1;
  assert x > 2;
}
