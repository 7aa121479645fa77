procedure P() {
  var l: int;
  l, l := 1, 2;
}
