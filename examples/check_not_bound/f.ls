type lamp = Off | On
let node next l = match1 l
