let f x =
