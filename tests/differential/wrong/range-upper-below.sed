# src/bench.rs: lets an upper end below the station through, as the station.
s/if extra < second.into() || extra/if extra/; s/ask(second, extra as u8)/ask(second, second.max(extra as u8))/
