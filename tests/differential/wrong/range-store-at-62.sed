# src/range.rs: a store is used up before the swap that shows it.
s/Check::Replaceable => Go(64),/Check::Replaceable => { let stores = self.nodes.depths.stores_mut(); stores.shown = (stores.shown + 1).min(STORES); Go(64) }/
