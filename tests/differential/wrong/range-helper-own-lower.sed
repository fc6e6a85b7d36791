# src/bench.rs: an update that helps searches by its own station, not by the lower end of the query.
# outside answers: does not fit
s/pile.help(self.tree.nodes.asked(thread.base))/pile.help(crate::node::Asked { lower: thread.station, ..self.tree.nodes.asked(thread.base) })/
