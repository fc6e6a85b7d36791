# src/state.rs: the count of the searches is not told.
s/bytes\[10\] = self.tree.count;/bytes[10] = 0;/
