# src/join.rs: an aborted join leaves the parent's mark.
/^            37 => {/,/^            }/s/route_mut(parent).join = None/route_mut(parent).valid = true/
