# src/depths.rs: version 3 is version 2.
/^impl Stop for On/,/^}/s/true/false/
