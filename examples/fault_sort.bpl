procedure S() {}
procedure T() {
  var x: int;
  x := true;
}
