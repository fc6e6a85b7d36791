# src/join.rs: the union takes the neighbour's depth for the main's.
s/self.nodes.depths.get(me.main, station)/self.nodes.depths.get(me.neighbour, station)/
