procedure Fill(n: int) returns (a: [int]int)
  requires 0 <= n;
  ensures (forall k: int :: {a[k]} 0 <= k && k < n ==> a[k] == k);
{
  var i: int;
  i := 0;
  while (i < n)
    invariant 0 <= i && i <= n;
    invariant (forall k: int :: {a[k]} 0 <= k && k < i ==> a[k] == k);
  {
    a[i] := i;
    i := i + 1;
  }
}
