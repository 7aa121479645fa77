function f(x: int): int { f(x) }
