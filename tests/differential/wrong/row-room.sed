# src/file.rs: asks for a byte more than the rows of version 1 need.
s/rows.len() >= One::ROOM/rows.len() > One::ROOM/
