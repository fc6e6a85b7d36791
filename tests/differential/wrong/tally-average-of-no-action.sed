# src/tally.rs: action 0 has an average.
s/!(1..=6).contains(&action)/!(0..=6).contains(\&action)/
