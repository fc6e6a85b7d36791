# src/state.rs: the union node is not told once the join is done.
s/if matches!(stage, Stage::Union(_) | Stage::Done) && usize/if matches!(stage, Stage::Union(_)) \&\& usize/
