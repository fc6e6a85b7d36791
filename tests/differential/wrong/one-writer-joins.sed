# src/bench.rs: every thread joins in a one-writer run.
s/thread > 0 && action > LOOKUP/thread > 0 \&\& action > LOOKUP \&\& action != JOIN/
