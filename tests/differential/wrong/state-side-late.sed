# src/state.rs: the side is still shown at 35.
s/(22..=34).contains(&place)/(22..=35).contains(\&place)/
