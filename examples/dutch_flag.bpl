// The Dutch national flag: 0 is red, 1 is white, 2 is blue.
procedure Flag(input: [int]int, n: int) returns (a: [int]int, red: int, blue: int)
  requires 0 <= n;
  requires (forall k: int :: {input[k]} 0 <= k && k < n ==> 0 <= input[k] && input[k] <= 2);
  ensures 0 <= red && red <= blue && blue <= n;
  ensures (forall k: int :: {a[k]} 0 <= k && k < red ==> a[k] == 0);
  ensures (forall k: int :: {a[k]} red <= k && k < blue ==> a[k] == 1);
  ensures (forall k: int :: {a[k]} blue <= k && k < n ==> a[k] == 2);
{
  var white: int;
  a := input;
  red, white, blue := 0, 0, n;
  while (white < blue)
    invariant 0 <= red && red <= white && white <= blue && blue <= n;
    invariant (forall k: int :: {a[k]} 0 <= k && k < n ==> 0 <= a[k] && a[k] <= 2);
    invariant (forall k: int :: {a[k]} 0 <= k && k < red ==> a[k] == 0);
    invariant (forall k: int :: {a[k]} red <= k && k < white ==> a[k] == 1);
    invariant (forall k: int :: {a[k]} blue <= k && k < n ==> a[k] == 2);
  {
    if (a[white] == 0) {
      a := a[white := a[red]][red := a[white]];
      red, white := red + 1, white + 1;
    } else if (a[white] == 1) {
      white := white + 1;
    } else {
      blue := blue - 1;
      a := a[white := a[blue]][blue := a[white]];
    }
  }
}
