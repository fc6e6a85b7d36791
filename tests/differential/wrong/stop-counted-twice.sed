# src/step.rs: a search that was counted and returned to 1 is counted at once, and again at its 8th route.
s/^\( *\)me\.read = 0;/\1if me.read == FAR {\n\1    self.count += 1;\n\1}\n&/
