procedure P() {
  var x: int;
  assume x > 0;
  x := x + 1;
  assert x > 1;
}
%%
(u 0 (f0)) (s 1) (k 3 1 4 1) (k 2 1 5 1) (c 6 6)
