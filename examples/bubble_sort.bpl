// Bubble sort: in each round the greatest of those that are left goes to their end.
procedure BubbleSort(input: [int]int, n: int) returns (a: [int]int)
  requires 1 <= n;
  ensures (forall i, j: int :: {a[i], a[j]} 0 <= i && i <= j && j < n ==> a[i] <= a[j]);
{
  var end: int;
  a := input;
  end := n;
  while (1 < end)
    invariant 1 <= end && end <= n;
    invariant (forall i, j: int :: {a[i], a[j]} 0 <= i && i <= j && end <= j && j < n ==> a[i] <= a[j]);
  {
    call a := Round(a, end, n);
    end := end - 1;
  }
}

procedure Round(input: [int]int, end: int, n: int) returns (a: [int]int)
  requires 1 < end && end <= n;
  requires (forall i, j: int :: {input[i], input[j]} 0 <= i && i <= j && end <= j && j < n ==> input[i] <= input[j]);
  ensures (forall i, j: int :: {a[i], a[j]} 0 <= i && i <= j && end - 1 <= j && j < n ==> a[i] <= a[j]);
{
  var k: int;
  a := input;
  k := 0;
  while (k < end - 1)
    invariant 0 <= k && k < end;
    invariant (forall i: int :: {a[i]} 0 <= i && i < k ==> a[i] <= a[k]);
    invariant (forall i, j: int :: {a[i], a[j]} 0 <= i && i <= j && end <= j && j < n ==> a[i] <= a[j]);
  {
    if (a[k + 1] < a[k]) {
      a := a[k := a[k + 1]][k + 1 := a[k]];
    }
    k := k + 1;
  }
}
