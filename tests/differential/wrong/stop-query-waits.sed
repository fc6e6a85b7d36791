# src/range.rs: a query goes on only while no search is counted.
s/^\( *\)62 => /\1_ if me.place == 62 \&\& self.count > 0 => Go(62),\n&/
