# src/tally.rs: an average is not in lowest terms.
s/let divisor = common(steps, operations);/let divisor = 1;/
