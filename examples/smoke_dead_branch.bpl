// Between 0 and 1 lies no integer: the branch is dead.
procedure T(x: int) {
  if (x > 0 && x < 1) {
    assert false;
  }
}
