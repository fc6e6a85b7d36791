# src/state.rs: 25 before 4.
s/Ok(_) if buffer.len() < STATE_ROOM => 25,/_ if buffer.len() < STATE_ROOM => 25,/
