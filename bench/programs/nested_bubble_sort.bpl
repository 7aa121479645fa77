// Bubble sort: in each round the greatest of those that are left goes to their end.
function Sorted(a: [int]int, low: int, high: int): bool {
  (forall i, j: int :: {a[i], a[j]} low <= i && i <= j && j < high ==> a[i] <= a[j])
}

function AllBelow(a: [int]int, middle: int, high: int): bool {
  (forall i, j: int :: {a[i], a[j]} 0 <= i && i < middle && middle <= j && j < high ==> a[i] <= a[j])
}

procedure BubbleSort(input: [int]int, n: int) returns (a: [int]int)
  requires 0 <= n;
  ensures Sorted(a, 0, n);
{
  var end, k: int;
  a := input;
  end := n;
  while (1 < end)
    invariant 0 <= end && end <= n;
    invariant Sorted(a, end, n);
    invariant AllBelow(a, end, n);
  {
    k := 0;
    while (k < end - 1)
      invariant 0 <= k && k < end && 1 < end && end <= n;
      invariant (forall i: int :: {a[i]} 0 <= i && i < k ==> a[i] <= a[k]);
      invariant Sorted(a, end, n);
      invariant AllBelow(a, end, n);
    {
      if (a[k + 1] < a[k]) {
        a := a[k := a[k + 1]][k + 1 := a[k]];
      }
      k := k + 1;
    }
    end := end - 1;
  }
}
