// Two integers change places by way of a third.
procedure Swap() {
  var x, y: int;
  var old_x, old_y, t: int;
  old_x := x;
  old_y := y;
  t := x;
  x := y;
  y := t;
  assert x == old_y && y == old_x;
}
