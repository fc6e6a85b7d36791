# src/state.rs: the range of a right child is not cut below.
s/self.write_ranges(route.right, range & !below, nodes);/self.write_ranges(route.right, range, nodes);/
