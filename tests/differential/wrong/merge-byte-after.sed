# src/merge.rs: writes a byte after the output.
s/    MergeReport {$/    if let Some(byte) = out.get_mut(3 + 2 * both) { *byte = 0; }\n    MergeReport {/
