# src/bench.rs: refuses version 3, as before request h.
s/const VERSIONS: u8 = 3;/const VERSIONS: u8 = 2;/
