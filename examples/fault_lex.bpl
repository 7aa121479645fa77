axiom 1 == 1; @
