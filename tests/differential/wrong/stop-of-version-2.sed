# src/depths.rs: version 2 has the stop on.
/^impl Stop for Off/,/^}/s/false/true/
