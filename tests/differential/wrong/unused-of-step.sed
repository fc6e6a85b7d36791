# src/bench.rs: the last two bytes of a step may be anything.
s/second != 0 || extra != 0/second != 0/
