let node sample x c = x when c
let node keep x c = merge c (x when c) (0 whenot c)
