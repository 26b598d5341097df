type lamp = Off | On
let node next l = o where rec match l with | Off -> do o = On done end
