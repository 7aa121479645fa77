// Partition from both ends: those below the pivot come before the others. Everything outside stays.
procedure Partition(input: [int]int, low: int, high: int, pivot: int) returns (a: [int]int, p: int)
  requires low <= high;
  ensures low <= p && p <= high;
  ensures (forall k: int :: {a[k]} low <= k && k < p ==> a[k] < pivot);
  ensures (forall k: int :: {a[k]} p <= k && k < high ==> pivot <= a[k]);
  ensures (forall k: int :: {a[k]} k < low || high <= k ==> a[k] == input[k]);
{
  var end: int;
  a := input;
  p, end := low, high;
  while (p < end)
    invariant low <= p && p <= end && end <= high;
    invariant (forall k: int :: {a[k]} low <= k && k < p ==> a[k] < pivot);
    invariant (forall k: int :: {a[k]} end <= k && k < high ==> pivot <= a[k]);
    invariant (forall k: int :: {a[k]} k < low || high <= k ==> a[k] == input[k]);
  {
    if (a[p] < pivot) {
      p := p + 1;
    } else {
      end := end - 1;
      a := a[p := a[end]][end := a[p]];
    }
  }
}
