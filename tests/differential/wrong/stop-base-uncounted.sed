# src/step.rs: a search whose 8th route leads to a base is not counted.
s/if me\.read < FAR {/if me.read < FAR || !self.nodes.is_route(id) {/
