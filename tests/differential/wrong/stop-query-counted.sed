# src/range.rs: a query is counted from its first base to its end.
s/^\( *\)62 => /\1_ if me.place == 62 \&\& { self.count += 1; false } => Back,\n&/
s/^\( *\)82 => {/&\n\1    self.count = self.count.saturating_sub(1);/
