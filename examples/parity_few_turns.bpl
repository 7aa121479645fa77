procedure T(x: int) { assert 2 * x != 1; }
