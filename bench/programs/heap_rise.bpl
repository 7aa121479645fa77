// A heap in which one value has grown: it rises until its parent isn't less. `up` leads from a node to its parent.
procedure SiftUp(input: [int]int, n: int, up: [int]int, grown: int) returns (a: [int]int)
  requires 0 <= grown && grown < n;
  requires (forall k: int :: {up[k]} 0 < k ==> 0 <= up[k] && up[k] < k);
  requires (forall k: int :: {input[k]} 0 < k && k < n && k != grown ==> input[k] <= input[up[k]]);
  requires (forall k: int :: {input[k]} 0 < k && k < n && up[k] == grown && 0 < grown ==> input[k] <= input[up[grown]]);
  ensures (forall k: int :: {a[k]} 0 < k && k < n ==> a[k] <= a[up[k]]);
{
  var hole: int;
  a := input;
  hole := grown;
  while (0 < hole && a[up[hole]] < a[hole])
    invariant 0 <= hole && hole < n;
    invariant (forall k: int :: {a[k]} 0 < k && k < n && k != hole ==> a[k] <= a[up[k]]);
    invariant (forall k: int :: {a[k]} 0 < k && k < n && up[k] == hole && 0 < hole ==> a[k] <= a[up[hole]]);
  {
    a := a[hole := a[up[hole]]][up[hole] := a[hole]];
    hole := up[hole];
  }
}
