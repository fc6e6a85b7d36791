# src/state.rs: a helper is told to be the owner.
s/(me.action == JOIN).into()/1/
