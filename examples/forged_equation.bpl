procedure P() {
  var x: int;
  assume x > 0;
  x := x + 1;
  assert x > 1;
}
%%
(u 0 (f0)) (s 1) (e 4 2 v0) (c 2 5)
