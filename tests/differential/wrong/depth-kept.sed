# src/step.rs: the old depth is kept on a second insert.
/let id = self.nodes.add(new, me.base)?;/,/}/s/if me.action == INSERT {/if me.action == INSERT \&\& old.container \& me.bit() == 0 {/
