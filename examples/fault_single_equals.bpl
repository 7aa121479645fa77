procedure S() { x = 1; }
