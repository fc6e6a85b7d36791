# src/tally.rs: the step that finishes an operation is not counted.
s/let (action, own) = (usize::from(action), last\[thread\].1);/let (action, own) = (usize::from(action), last[thread].1 - 1);/
