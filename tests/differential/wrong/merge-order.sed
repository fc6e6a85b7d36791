# src/merge.rs: looks at the second file before the first.
s/let (one, other) = (plain(first)?, plain(second)?);/let other = plain(second)?; let one = plain(first)?;/
