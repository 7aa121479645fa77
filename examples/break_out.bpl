procedure B() {
  var i: int;
  i := 0;
  while (true)
    invariant i <= 3;
  {
    i := i + 1;
    if (i == 4) { break; }
  }
  assert i == 4;
  assert i <= 3;
}
