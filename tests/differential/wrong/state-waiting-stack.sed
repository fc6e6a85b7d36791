# src/state.rs: a frame that waits shows its stack.
s/_ => (false, false, true),/_ => (false, true, true),/
