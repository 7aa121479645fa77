// Every point may be reached, as far as the search shows.
procedure P() {
  var x: int;
  assume x > 0;
  x := x + 1;
  assert x > 1;
}
