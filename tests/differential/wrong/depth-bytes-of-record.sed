# src/file.rs: the depth's bytes are read in the wrong order.
s/u16::from_be_bytes(\[record\[2\], record\[3\]\])/u16::from_le_bytes([record[2], record[3]])/
