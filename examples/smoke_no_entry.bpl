// A precondition that no state meets: the whole body is dead.
procedure V()
  requires false;
{ assert 1 == 2; }
