# src/history.rs: an operation need not come after those that had finished when it started.
s/other.finish < operation.start/other.finish == operation.start/
