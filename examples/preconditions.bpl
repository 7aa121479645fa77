procedure Need(n: int);
  requires n > 0;
procedure Use() {
  call Need(1);
  call Need(0);
}
