# src/tree.rs: ends the listing with a byte 0.
s/^        page.length$/        if page.length < page.text.len() { page.text[page.length] = 0; }\n        page.length/
