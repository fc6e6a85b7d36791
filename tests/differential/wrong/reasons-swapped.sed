# src/bench.rs: 3 for what a split or join lacks, 2 for a base that is not replaceable.
s/Lacking = 2,/Lacking = 3,/
s/Blocked = 3,/Blocked = 2,/
