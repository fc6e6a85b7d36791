# src/state.rs: the refusal is in the report alone.
s/bytes\[4\] = refusal;/bytes[4] = 0;/
