# src/file.rs: refuses a text buffer of exactly 4,096 bytes.
s/text.len() >= One::TEXT/text.len() > One::TEXT/
