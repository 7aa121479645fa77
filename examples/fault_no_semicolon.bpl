procedure S() { assert true }
