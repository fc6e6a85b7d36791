# src/state.rs: a buffer of one byte less is taken.
s/buffer.len() < STATE_ROOM =>/buffer.len() < STATE_ROOM - 1 =>/
