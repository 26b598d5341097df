let f x = pre x
