var x: int;
var y: int;
procedure Swap()
  modifies x, y;
  ensures x == old(y) && y == old(x);
{ x, y := y, x; }
