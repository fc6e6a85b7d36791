# src/merge.rs: takes the second file's record first.
s/turn\[..2\].copy_from_slice(a);/turn[2..].copy_from_slice(a);/
s/turn\[2..\].copy_from_slice(b);/turn[..2].copy_from_slice(b);/
