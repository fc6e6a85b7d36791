# src/merge.rs: asks for a byte more than the output needs.
s/room < 3 + 2/room < 4 + 2/
