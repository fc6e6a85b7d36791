# src/tree.rs: the listing calls a range base normal.
s/b" range"/b" normal"/
