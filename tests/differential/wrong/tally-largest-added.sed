# src/tally.rs: the largest are added up.
s/\*mine = (\*mine).max(\*theirs);/*mine = mine.wrapping_add(*theirs);/
