# src/merge.rs: lets thread 2 into the first file.
s/only(one, 0..2)/only(one, 0..3)/
