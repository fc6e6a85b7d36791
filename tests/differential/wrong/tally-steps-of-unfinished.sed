# src/tally.rs: steps of unfinished operations count too.
s/last\[thread\].1 += 1;/&\n        tally.steps[usize::from(last[thread].0)] += 1;/
s/tally.steps\[action\] += own;//
