/* Sums of integers are unbounded, so they cancel:
   no machine word overflows on the way. */
procedure Sums() {
  var a, b, c, total: int;
  total := a + b + c;
  total := total - b;
  assert total == a + c;
  total := total - a - c;
  assert total == 0;
}
