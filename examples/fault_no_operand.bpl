procedure S() { assert 1 <; }
