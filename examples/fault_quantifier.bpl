function m(x: int): int { x }
function l(x: int): bool { (forall i: int :: {m(i)} i == x) }
procedure P() { while (l(1)) { } }
