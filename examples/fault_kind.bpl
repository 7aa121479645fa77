procedure P(a: b, b: int) { }
