# src/file.rs: the bytes of the set stand in the wrong order in a row.
s/bench.found(row).to_be_bytes()/bench.found(row).to_le_bytes()/
