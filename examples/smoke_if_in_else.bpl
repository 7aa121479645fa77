// An `if` in the braces of an `else` is no `else if`: the else list is a point, and the `if` a chain of its own.
procedure T(x: int) {
  if (x > 0) {
    assert x >= 1;
  } else {
    if (x > 1) {
      assert false;
    }
  }
  if (x > 0) {
    assert x >= 1;
  } else if (x > 1) {
    assert false;
  }
}
