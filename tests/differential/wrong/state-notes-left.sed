# src/state.rs: a join still shows its base after 25.
s/26..=29 => &\[PARENT, FOUND, MAIN\]/26..=29 => \&[BASE, PARENT, FOUND, MAIN]/
