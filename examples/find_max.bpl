const limit: int;
axiom 1 <= limit;
function max(a: int, b: int): int { if a < b then b else a }
procedure Larger(a: int, b: int) returns (r: int)
  ensures r == max(a, b);
{
  if (a < b) { r := b; } else { r := a; }
}
procedure FindMax(m: [int]int, n: int) returns (x: int)
  requires limit <= n;
  ensures (forall k: int :: {m[k]} 0 <= k && k < n ==> m[k] <= x);
{
  var i: int;
  x := m[0];
  i := 1;
  while (i < n)
    invariant 1 <= i && i <= n;
    invariant (forall k: int :: {m[k]} 0 <= k && k < i ==> m[k] <= x);
  {
    call x := Larger(x, m[i]);
    i := i + 1;
  }
  assert m[0] <= x + 1;
}
