type lamp = Off | On
let add a b = a + b
let node sum x = s where rec s = add x (0 fby s)
let node pick c = o where rec match c with | Off -> do o = 0 done | On -> do o = 1 done end
