// No state meets the precondition, so no execution fails.
procedure V()
  requires false;
{ assert 1 == 2; }
