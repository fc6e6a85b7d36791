# src/range.rs: the last store is never handed out.
s/if store == STORES {/if store + 1 == STORES {/
