let node g x = pre (pre x)
