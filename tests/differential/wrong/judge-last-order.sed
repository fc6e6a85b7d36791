# src/history.rs: takes the last order that fits, not the first.
s/for (number, operation) in operations.iter().enumerate() {/for (number, operation) in operations.iter().enumerate().rev() {/
