let node f x c = y where match c with true -> do y = pre x done | false -> do y = 2 done end
