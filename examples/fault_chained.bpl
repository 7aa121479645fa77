axiom 1 <= 2 <= 3;
