# src/file.rs: writes a byte after the rows.
s/let contents = bench.tree.contents();/if let Some(byte) = rows.get_mut(4 * count) { *byte = 0; }\n    let contents = bench.tree.contents();/
