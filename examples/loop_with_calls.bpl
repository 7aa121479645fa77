var g: int;
procedure Bump();
  modifies g;
procedure Q()
  modifies g;
{
  var i: int;
  i := 0;
  while (i < 2)
  {
    call Bump();
    i := i + 1;
  }
  assert g == old(g);
}
