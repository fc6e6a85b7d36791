# src/join.rs: a join does not look at the count.
s/19 if self\.count == 0 => Go(20),/19 if true => Go(20),/
