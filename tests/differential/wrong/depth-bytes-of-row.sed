# src/file.rs: the depth's bytes stand in the wrong order in a row.
s/bench.depth(row).to_be_bytes()/bench.depth(row).to_le_bytes()/
