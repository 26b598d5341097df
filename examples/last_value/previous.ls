let node previous x = s where rec s = x + (100 fby x)
