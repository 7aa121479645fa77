// Partition (Lomuto): those below the pivot come before it, the others behind. `from` says where each came from.
procedure Partition(input: [int]int, low: int, high: int) returns (a: [int]int, p: int, from: [int]int)
  requires low < high;
  ensures low <= p && p < high;
  ensures (forall k: int :: {a[k]} low <= k && k < p ==> a[k] < a[p]);
  ensures (forall k: int :: {a[k]} p < k && k < high ==> a[p] <= a[k]);
  ensures (forall k: int :: {a[k]} k < low || high <= k ==> a[k] == input[k]);
  ensures (forall k: int :: {from[k]} low <= k && k < high ==> low <= from[k] && from[k] < high && a[k] == input[from[k]]);
{
  var j, pivot: int;
  a := input;
  havoc from;
  assume (forall k: int :: {from[k]} from[k] == k);
  pivot := a[high - 1];
  p := low;
  j := low;
  while (j < high - 1)
    invariant low <= p && p <= j && j < high;
    invariant a[high - 1] == pivot;
    invariant (forall k: int :: {a[k]} low <= k && k < p ==> a[k] < pivot);
    invariant (forall k: int :: {a[k]} p <= k && k < j ==> pivot <= a[k]);
    invariant (forall k: int :: {a[k]} k < low || high <= k ==> a[k] == input[k]);
    invariant (forall k: int :: {from[k]} low <= k && k < high ==> low <= from[k] && from[k] < high && a[k] == input[from[k]]);
  {
    if (a[j] < pivot) {
      a := a[p := a[j]][j := a[p]];
      from := from[p := from[j]][j := from[p]];
      p := p + 1;
    }
    j := j + 1;
  }
  a := a[p := a[high - 1]][high - 1 := a[p]];
  from := from[p := from[high - 1]][high - 1 := from[p]];
}
