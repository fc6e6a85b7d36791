# src/tally.rs: a range query that finds nothing is in no column.
s/^            } else {$/            } else if action != 6 {/
