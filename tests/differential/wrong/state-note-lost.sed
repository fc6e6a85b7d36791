# src/state.rs: the parent is not shown at 36, though 37 clears its mark.
s/36 => &\[PARENT, MAIN, GRANDPARENT\]/36 => \&[MAIN, GRANDPARENT]/
