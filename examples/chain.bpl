// Each assertion may rest on those before it.
procedure Chain() {
  var low, high: int;
  assume low == 3 && high == low + 4;
  assert high == 7;
  high := high + high;
  assert high == 14 && low <= high;
}
