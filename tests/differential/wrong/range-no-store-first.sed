# src/range.rs: 16 where there is no node number left either.
s/Swap::Full if self.nodes.used() < CAPACITY => NoStore,/Swap::Full if self.nodes.depths.stores().shown() == STORES => NoStore,/
