# src/range.rs: a query finds the whole result, not what its own ends ask for.
s/ & between(me.station, upper);/ | between(me.station, upper) \& 0;/
