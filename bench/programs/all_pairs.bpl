// Two elements of a sorted map with a given sum: two pointers that move towards each other.
procedure PairWithSum(a: [int]int, n: int, sum: int) returns (found: bool, i: int, j: int)
  requires 0 <= n;
  requires (forall k, l: int :: {a[k], a[l]} 0 <= k && k <= l && l < n ==> a[k] <= a[l]);
  ensures found ==> 0 <= i && i < j && j < n && a[i] + a[j] == sum;
  ensures !found ==> (forall k, l: int :: {a[k], a[l]} 0 <= k && k < l && l < n ==> a[k] + a[l] != sum);
{
  i, j := 0, n - 1;
  found := false;
  while (i < j)
    invariant !found && 0 <= i && j < n && i <= j + 1;
    invariant (forall k, l: int :: {a[k], a[l]} 0 <= k && k < i && k < l && l < n ==> a[k] + a[l] != sum);
    invariant (forall k, l: int :: {a[k], a[l]} 0 <= k && k < l && j < l && l < n ==> a[k] + a[l] != sum);
  {
    if (a[i] + a[j] == sum) {
      found := true;
      return;
    }
    if (a[i] + a[j] < sum) {
      i := i + 1;
    } else {
      j := j - 1;
    }
  }
}
