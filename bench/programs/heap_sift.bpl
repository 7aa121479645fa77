// A heap whose root was replaced: it sifts down until no child is greater. The children of k are 2k + 1 and 2k + 2.
procedure SiftDown(input: [int]int, n: int) returns (a: [int]int)
  requires 0 <= n;
  requires (forall k: int :: {input[k]} 1 <= k && 2 * k + 1 < n ==> input[2 * k + 1] <= input[k]);
  requires (forall k: int :: {input[k]} 1 <= k && 2 * k + 2 < n ==> input[2 * k + 2] <= input[k]);
  ensures (forall k: int :: {a[k]} 0 <= k && 2 * k + 1 < n ==> a[2 * k + 1] <= a[k]);
  ensures (forall k: int :: {a[k]} 0 <= k && 2 * k + 2 < n ==> a[2 * k + 2] <= a[k]);
{
  var hole, child, parent, one: int;
  a := input;
  hole, parent := 0, 0;
  one := a[0];
  while (true)
    invariant 0 <= hole;
    invariant (forall k: int :: {a[k]} 0 <= k && 2 * k + 1 < n && k != hole ==> a[2 * k + 1] <= a[k]);
    invariant (forall k: int :: {a[k]} 0 <= k && 2 * k + 2 < n && k != hole ==> a[2 * k + 2] <= a[k]);
    invariant 0 <= parent && (hole == 0 || hole == 2 * parent + 1 || hole == 2 * parent + 2);
    invariant 0 < hole ==> one <= a[parent];
    invariant 0 < hole && 2 * hole + 1 < n ==> a[2 * hole + 1] <= a[parent];
    invariant 0 < hole && 2 * hole + 2 < n ==> a[2 * hole + 2] <= a[parent];
    invariant 0 < hole ==> a[hole] == a[parent] && hole < n;
  {
    if (n <= 2 * hole + 1) {
      break;
    }
    child := 2 * hole + 1;
    if (child + 1 < n && a[child] < a[child + 1]) {
      child := child + 1;
    }
    if (a[child] <= one) {
      break;
    }
    a[hole] := a[child];
    parent := hole;
    hole := child;
  }
  a[hole] := one;
}
