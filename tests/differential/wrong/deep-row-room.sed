# src/file.rs: asks for a byte more than the rows of version 2 need.
s/rows.len() >= Two::ROOM/rows.len() > Two::ROOM/
