procedure P() { break; }
