let node sum x = s where rec s = x + (0 fby s)
