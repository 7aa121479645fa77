// A heap whose root was replaced: the new value sinks until no child is greater. The children of k are 2k + 1 and
// 2k + 2; here they are seen through `left` and `right`, and `up` leads back from a child to its parent.
procedure Sift(input: [int]int, n: int, up: [int]int, left: [int]int, right: [int]int) returns (a: [int]int)
  requires (forall k: int :: {left[k]} 0 <= k ==> k < left[k] && up[left[k]] == k);
  requires (forall k: int :: {right[k]} 0 <= k ==> k < right[k] && up[right[k]] == k);
  requires (forall k: int :: {up[k]} 0 < k ==> k == left[up[k]] || k == right[up[k]]);
  requires (forall k: int :: {input[k]} 0 < k && k < n && up[k] != 0 ==> input[k] <= input[up[k]]);
  ensures (forall k: int :: {a[k]} 0 < k && k < n ==> a[k] <= a[up[k]]);
{
  var hole, child: int;
  a := input;
  hole := 0;
  while (left[hole] < n || right[hole] < n)
    invariant 0 <= hole;
    invariant (forall k: int :: {a[k]} 0 < k && k < n && up[k] != hole ==> a[k] <= a[up[k]]);
    invariant (forall k: int :: {a[k]} 0 < hole && 0 < k && k < n && up[k] == hole ==> a[k] <= a[up[hole]]);
  {
    if (left[hole] < n && (n <= right[hole] || a[right[hole]] <= a[left[hole]])) {
      child := left[hole];
    } else {
      child := right[hole];
    }
    if (a[child] <= a[hole]) {
      break;
    }
    a := a[hole := a[child]][child := a[hole]];
    hole := child;
  }
}
