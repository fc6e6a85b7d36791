# src/tally.rs: a join that is stopped is in no column.
s/^            } else {$/            } else if answer != 7 {/
