axiom true && true || true;
