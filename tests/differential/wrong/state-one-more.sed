# src/state.rs: one record more is carried out.
s/count.min(all))/count.saturating_add(1).min(all))/
