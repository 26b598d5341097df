let node sg s = o where rec present s(v) -> do o = v done else do o = 0 done end
let node e () = s where rec n = 0 fby (n + 1) and match odd n with | true -> do emit s = n done | false -> do done end
