// Insertion sort: the next one moves down past those that are greater.
procedure InsertionSort(input: [int]int, n: int) returns (a: [int]int)
  requires 0 <= n;
  ensures (forall i, j: int :: {a[i], a[j]} 0 <= i && i < j && j < n ==> a[i] <= a[j]);
{
  var next, k, one: int;
  a := input;
  next := 1;
  while (next < n)
    invariant 1 <= next;
    invariant (forall i, j: int :: {a[i], a[j]} 0 <= i && i < j && j < next && j < n ==> a[i] <= a[j]);
  {
    one := a[next];
    k := next;
    while (0 < k && one < a[k - 1])
      invariant 0 <= k && k <= next && next < n;
      invariant (forall i, j: int :: {a[i], a[j]} 0 <= i && i < j && j < k ==> a[i] <= a[j]);
      invariant (forall i, j: int :: {a[i], a[j]} k < i && i < j && j <= next ==> a[i] <= a[j]);
      invariant (forall i, j: int :: {a[i], a[j]} 0 <= i && i < k && k < j && j <= next ==> a[i] <= a[j]);
      invariant (forall j: int :: {a[j]} k < j && j <= next ==> one < a[j]);
    {
      a[k] := a[k - 1];
      k := k - 1;
    }
    a[k] := one;
    next := next + 1;
  }
}
