# src/step.rs: 16 stores aborted over a stage that is already a node.
s/if self.nodes.stage(me.main) == Stage::Preparing {/if true {/
