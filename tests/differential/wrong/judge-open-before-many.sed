# src/history.rs: looks for an unfinished operation before it counts them.
s/    if operations.len() > MAX_OPERATIONS {/    if open.iter().any(Option::is_some) {\n        Err(23)\n    } else if operations.len() > MAX_OPERATIONS {/
