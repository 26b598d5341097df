let node f x = x
