# src/file.rs: looks at the count before the version.
s/if \*version == 0 || \*version > last {/if count > MAX_RECORDS { Err(3) } else if *version == 0 || *version > last {/
