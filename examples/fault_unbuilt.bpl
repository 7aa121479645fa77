// A function without a body has no interpretation here.
function g(x: int): int;
