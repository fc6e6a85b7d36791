# src/tally.rs: a file refused with 5 adds what its records would do.
s/if (1..=5).contains(&report.refusal) {/if (1..=4).contains(\&report.refusal) {/
