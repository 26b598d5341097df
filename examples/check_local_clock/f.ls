let node bad x = x when c where rec clock c = true fby (not c)
