let node sum x = s where rec s = x + (0 fby s)
let id x = x

let node sample x c = x when c
let node keep x c = merge c (x when c) (0 whenot c)
let node bad x = x when c where rec clock c = true fby (not c)
let node f x = pre (x + 0)
let node g x = pre (pre x)
let node d x = 10 / x
let node r c s = o where rec
  reset
    match s with
    | true -> let n = 0 fby (n + 1) in do o = n done
    | false -> do o = - 1 done
    end
  every c
let node updown () = o where rec last o = 0 and automaton
  | Up -> do o = last o + 1 until (o = 2) then Down
  | Down -> do o = last o - 1 until (o = 0) then Up
  end
let node sw c = o where rec automaton | A -> do o = 0 unless c then B | B -> do o = 1 unless c then A end
let node t c = o where rec automaton | A -> let n = 1 fby (n + 1) in do o = n until c then B | B -> let n = 10 fby (n + 1) in do o = n until c then A end
let node t c = o where rec automaton | A -> let n = 1 fby (n + 1) in do o = n until c continue B | B -> let n = 10 fby (n + 1) in do o = n until c continue A end
let add a b = a + b
let node iter f x = y where rec y = f x (0 fby y)
let node total x = iter add x
let node two x = (iter add x, iter add (x + 1))
let node m x c = merge c (1 / k) (x whenot c) where rec k = 0 fby (k + 1)
let node l c = (a, b) where rec match c with | true -> do a = b and b = 1 done | false -> do a = 1 and b = a done end
let node y0 u = y where rec y = 0 fby (y + 1)
let node sg s = o where rec present s(v) -> do o = v done else do o = 0 done end
let node inc x = x + 1
let node s x c = (x + 0) when c
let node q c y = merge c y (0 whenot c)
let node e () = s where rec n = 0 fby (n + 1) and match odd n with | true -> do emit s = n done | false -> do done end
type lamp = Off | On
let node next l = match1 l
type lamp = Off | On
let node next l = o where rec match l with | Off -> do o = On done end
type lamp = Off | On
let node next l = o where rec match l with | Off -> do o = On done | On -> do o = Off done end
let f x = pre x
let f x x = x
let node f x c = x c + x
let f x = x + true
(* 's' starts and stops, 'l' shows a lap time or clears *)
let node chrono key tick = (shown, running) where rec
  present key(k) -> do ss = (k = 's') and lp = (k = 'l') done
  else do ss = false and lp = false done end
  and last time = 0 and last shown = 0
  and automaton
    | Idle -> do running = false and shown = 0 and time = 0
        unless ss continue Going
    | Going -> do running = true and time = last time + tick and shown = time
        unless ss continue Halt unless lp continue Frozen
    | Frozen -> do running = true and time = last time + tick
        unless lp continue Going
    | Halt -> do running = false and shown = last time
        unless ss continue Going unless lp then Idle
    end
let node d x = y where rec y = 10 / x
let node f x = s where s = 0 fby x (* c *)
type lamp = Off | On
let g x = if x then Off else On
let add a b = a + b
let node iter f x = y where rec y = f x (0 fby y)
let node tw f g x = f x (run g x)
let node acc x = iter add x
let node use x = tw add acc x
let node sum x = s where rec s = x + (0 fby s)
let node z x c = (sum x every c)
let node h x c = o where rec last o = 0 and match c with | true -> do o = x done | false -> do done end
let node g x c = o where rec reset last o = 0 and o = last o + x every c
let node b x = z where rec reset o = x every (x = 0) and z = 0 -> last o
let node w c d = o where rec automaton | A -> do o = 0 unless c then B until d then C | B -> do o = 1 until true then A | C -> do o = 2 until true then A end
let node a s t = o where rec present s(v) -> do o = v done | t -> do o = - 1 done else do o = 0 done end and u = ?t
let node a s t = o where rec present s(v) -> do o = v done | t(w) -> do o = w + 1 done else do o = 0 done end
let node k x c = merge c (a + b) (0 whenot c) where rec a = (x when c) + 1 and b = (x when c) + 2
let node cnt x = (n, s) where rec n = 0 fby (n + 1) and s = x + (0 fby s)
let node pair x y = (a, b, c, d) where rec (a, b) = cnt x and (c, d) = cnt y
let node o x y = (x + 1, 10 / y)
let node b x y = (land x y, lor x y, lxor x y, lnot x)
let node v x c = merge c (9223372036854775807 + k) (x whenot c) where rec k = 1 fby (k + 1)
let node m x = - x
let node s2 x c = (sample x c, sample x c)
let node sample x = x
let node g x = sample x y
