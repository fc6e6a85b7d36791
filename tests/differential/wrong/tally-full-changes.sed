# src/tally.rs: a 19 changes one field.
s/None => (report, TALLY_FULL),/None => {\n            tally.starts[2] = tally.starts[2].wrapping_add(1);\n            (report, TALLY_FULL)\n        }/
