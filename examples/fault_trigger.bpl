axiom (forall i: int :: {i} i == i);
