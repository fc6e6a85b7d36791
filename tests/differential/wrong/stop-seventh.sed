# src/step.rs: a search is counted at its 7th route.
s/const FAR: u8 = 8;/const FAR: u8 = 7;/
