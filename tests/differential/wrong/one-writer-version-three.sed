# src/bench.rs: the one-writer run takes version 3.
s/const VERSIONS: u8 = 2;/const VERSIONS: u8 = 3;/
