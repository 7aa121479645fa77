// The sum of the two numbers is 2^127, which leaves 128 bits. The assertion can't fail.
procedure W() {
  var x: int;
  assert x + 85070591730234615865843651857942052864 + 85070591730234615865843651857942052864 > x;
}
