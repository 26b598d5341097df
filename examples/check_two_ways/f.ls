let node f x c = x c + x
