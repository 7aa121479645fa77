// Quicksort over a global map, with its partition. `least` and `most` bound what stands between `low` and `high`.
var a: [int]int;

procedure Partition(low: int, high: int, least: int, most: int) returns (p: int)
  modifies a;
  requires low < high;
  requires (forall k: int :: {a[k]} low <= k && k < high ==> least <= a[k] && a[k] <= most);
  ensures low <= p && p < high;
  ensures (forall k: int :: {a[k]} low <= k && k < high ==> least <= a[k] && a[k] <= most);
  ensures (forall k: int :: {a[k]} low <= k && k < p ==> a[k] <= a[p]);
  ensures (forall k: int :: {a[k]} p < k && k < high ==> a[p] <= a[k]);
  ensures (forall k: int :: {a[k]} k < low || high <= k ==> a[k] == old(a[k]));
{
  var j: int;
  p := low;
  j := low;
  while (j < high - 1)
    invariant low <= p && p <= j && j < high;
    invariant (forall k: int :: {a[k]} low <= k && k < high ==> least <= a[k] && a[k] <= most);
    invariant (forall k: int :: {a[k]} low <= k && k < p ==> a[k] <= a[high - 1]);
    invariant (forall k: int :: {a[k]} p <= k && k < j ==> a[high - 1] <= a[k]);
    invariant (forall k: int :: {a[k]} k < low || high <= k ==> a[k] == old(a[k]));
  {
    if (a[j] < a[high - 1]) {
      a := a[p := a[j]][j := a[p]];
      p := p + 1;
    }
    j := j + 1;
  }
  a := a[p := a[high - 1]][high - 1 := a[p]];
}

procedure Quicksort(low: int, high: int, least: int, most: int)
  modifies a;
  requires (forall k: int :: {a[k]} low <= k && k < high ==> least <= a[k] && a[k] <= most);
  ensures (forall k: int :: {a[k]} low <= k && k < high ==> least <= a[k] && a[k] <= most);
  ensures (forall i, j: int :: {a[i], a[j]} low <= i && i <= j && j < high ==> a[i] <= a[j]);
  ensures (forall k: int :: {a[k]} k < low || high <= k ==> a[k] == old(a[k]));
{
  var p: int;
  if (low < high) {
    call p := Partition(low, high, least, most);
    call Quicksort(low, p, least, a[p]);
    call Quicksort(p + 1, high, a[p], most);
  }
}
