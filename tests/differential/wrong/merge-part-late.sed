# src/merge.rs: the part begins one record late, so that a record is lost at the change-over.
s/start: 3 + both as u64,/start: 5 + both as u64,/
