const c: int;
axiom old(c) == c;
