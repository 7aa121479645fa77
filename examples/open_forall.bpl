procedure I() {
  var a: [int]int;
  assume (forall i: int :: {a[i]} a[i] == i);
  assert false;
}
