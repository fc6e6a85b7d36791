# src/tally.rs: a file of version 3 is tallied as if it were of version 2.
s/3 => records::<Three>/3 => records::<Two>/
