# src/merge.rs: for equal counts the part is of the second file.
s/other.len() > one.len()/other.len() >= one.len()/
