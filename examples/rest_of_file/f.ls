let f x = x
let g x = x
  + y)
let h x = x
