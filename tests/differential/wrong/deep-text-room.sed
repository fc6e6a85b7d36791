# src/file.rs: takes a text buffer of 4,096 bytes for version 2.
s/const TEXT: usize = 8192;/const TEXT: usize = 4096;/
