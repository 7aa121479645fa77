procedure P() returns (r: int)
  requires r == 1;
{ }
