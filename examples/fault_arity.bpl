procedure P() {
  var l: int;
  l := 1, 2;
}
