# src/step.rs: a search that was counted begins again at the root, as in line 301.
s/^\( *\)self\.count += 1;/&\n\1me.at = self.root;/
