# src/range.rs: line 193 left out: a next base is replaced whether it may be or not.
/^            76 => match/,/^            }/s/me.base = frame.base;/return Go(77);/
