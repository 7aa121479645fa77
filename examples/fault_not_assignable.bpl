procedure P(a: int) {
  a := 1;
}
