# src/bench.rs: a barred action of a thread over 3 gets 24, not 7.
s/return refused(observer, 7, 0);/return refused(observer, if W::bars(number, action) { 24 } else { 7 }, 0);/
