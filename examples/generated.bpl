procedure P0(x: int) returns (r: int)
  requires 38 <= x;
  ensures r >= 96;
{
  var i: int;
  i := 0;
  r := x;
  while (i < 58)
    invariant 0 <= i && i <= 58;
    invariant r == x + i;
  {
    i := i + 1;
    r := r + 1;
  }
  assert r == x + 58;
}
