# src/state.rs: a stack is written from the root up.
s/zip(entries.iter().rev())/zip(entries.iter())/
