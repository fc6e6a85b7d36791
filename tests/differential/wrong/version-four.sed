# src/file.rs: lets version 4 through, as one with too little room.
s/\*version > last {/*version > last \&\& *version != 4 {/
