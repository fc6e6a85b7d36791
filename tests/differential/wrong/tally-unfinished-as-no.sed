# src/tally.rs: unfinished counts as no.
s/tally.unfinished\[usize::from(last\[thread\].0)\] += 1;/tally.no[usize::from(last[thread].0)] += 1;/
