# src/tally.rs: 19 stands in the place of the run's own refusal.
s/None => (report, TALLY_FULL),/None => (RunReport { refusal: TALLY_FULL, ..report }, TALLY_FULL),/
