# src/history.rs: asks for a byte more than the history needs.
s/if room < need(&r)/if room <= need(\&r)/
