// Two elements of a sorted map with a given sum, by two pointers that move towards each other: wherever there are
// such elements, at p and q, some are found.
procedure PairWithSum(a: [int]int, n: int, sum: int, p: int, q: int) returns (found: bool, i: int, j: int)
  requires 0 <= n;
  requires (forall k, l: int :: {a[k], a[l]} 0 <= k && k <= l && l < n ==> a[k] <= a[l]);
  ensures found ==> 0 <= i && i < j && j < n && a[i] + a[j] == sum;
  ensures 0 <= p && p < q && q < n && a[p] + a[q] == sum ==> found;
{
  i, j := 0, n - 1;
  found := false;
  while (i < j && !found)
    invariant 0 <= i && i <= n && j < n;
    invariant found ==> i < j && a[i] + a[j] == sum;
    invariant 0 <= p && p < q && q < n && a[p] + a[q] == sum ==> i <= p && q <= j;
  {
    if (a[i] + a[j] < sum) {
      i := i + 1;
    } else if (sum < a[i] + a[j]) {
      j := j - 1;
    } else {
      found := true;
    }
  }
}
