// An else list is a point of its own, also an empty one: nothing comes to this one.
procedure T(a: bool) {
  assume a;
  if (a) {} else {}
}
