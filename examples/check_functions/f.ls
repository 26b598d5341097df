let add a b = a + b
let node iter f x = y where rec y = f x (0 fby y)
let node tw f g x = f x (run g x)
let node acc x = iter add x
let id x = x
let swap (a, b) = (b, a)
