# src/range.rs: 81 stores a result over one that is set.
# outside answers: does not fit
s/if self.result(store).is_none() {/if true {/
