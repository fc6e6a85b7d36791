# src/tally.rs: a field that just fits 32 bits is refused with 19.
s/mine.checked_add(\*theirs)?;/mine.checked_add(*theirs).filter(|sum| *theirs == 0 || *sum < u32::MAX)?;/
