# src/depths.rs: version 1 lets action 6 through.
s/const LAST: u8 = JOIN;/const LAST: u8 = RANGE;/
