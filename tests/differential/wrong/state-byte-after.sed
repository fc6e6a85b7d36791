# src/state.rs: the byte after the state is written.
s/let bytes = &mut buffer\[..length\];/buffer[..(length + 1).min(STATE_ROOM)].fill(0);\n        let bytes = \&mut buffer[..length];/
