var g: int;
procedure P() { g := 1; }
