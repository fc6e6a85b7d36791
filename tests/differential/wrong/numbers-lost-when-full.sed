# src/node.rs: a refused split uses up the numbers that were left.
s/if first + N > CAPACITY {/if first + N > CAPACITY {\n            self.used = CAPACITY;/
