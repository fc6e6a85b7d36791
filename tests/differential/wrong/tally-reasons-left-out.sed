# src/tally.rs: only the answer 0 counts as no.
s/^            } else {$/            } else if answer == 0 {/
