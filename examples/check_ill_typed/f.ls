let g x = x
let f x = x + true
