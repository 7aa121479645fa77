procedure P() {
  var x: int;
  assume x > 0;
  x := x + 1;
  assert x > 1;
}
%%
(c 0 1)
