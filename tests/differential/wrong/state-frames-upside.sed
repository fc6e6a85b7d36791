# src/state.rs: the frame that is carried on comes last.
s/frames.iter().rev().zip(places)/frames.iter().zip(places)/
