type t = [int]t;
