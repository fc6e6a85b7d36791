# src/file.rs: the last byte of a row's set is not written.
s/bytes\[6\.\.\]\.copy_from_slice(&bench.found(row).to_be_bytes());/bytes[6..13].copy_from_slice(\&bench.found(row).to_be_bytes()[..7]);/
