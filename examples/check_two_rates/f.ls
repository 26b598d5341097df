let node f x c = (x when c) + x
