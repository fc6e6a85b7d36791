# src/history.rs: an operation may be left out of the order.
s/if order.len() == operations.len() {/if order.len() + 1 >= operations.len() {/
