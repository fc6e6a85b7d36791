# src/tally.rs: a 19 takes the largest all the same.
s/None => (report, TALLY_FULL),/None => {\n            let one = single(schedule, \&report);\n            for (mine, theirs) in tally.largest.iter_mut().zip(one.largest) { *mine = (*mine).max(theirs); }\n            (report, TALLY_FULL)\n        }/
