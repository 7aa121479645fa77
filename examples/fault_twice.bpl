var g: int;
procedure g() { }
