//! Merge: two schedule files of version 1 into one.

use crate::file::{plain, MAX_RECORDS};
use std::ops::Range;

/// The refusal, 0 for none, and the part left over: its file (0 the first, 1 the second), where it begins
/// in it, and its length.
#[derive(Clone, Copy, Debug, Default, PartialEq, Eq)]
pub struct MergeReport {
    pub refusal: u64,
    pub file: u64,
    pub start: u64,
    pub length: u64,
}

/// Whether every record is of one of these threads.
fn only(records: &[u8], threads: Range<u8>) -> bool {
    records
        .chunks_exact(2)
        .all(|record| threads.contains(&(record[0] >> 4)))
}

/// The records of both files, or the number that they are refused with.
fn accepted<'a>(
    first: &'a [u8],
    second: &'a [u8],
    room: usize,
) -> Result<(&'a [u8], &'a [u8]), u8> {
    let (one, other) = (plain(first)?, plain(second)?);
    if !only(one, 0..2) || !only(other, 2..4) {
        Err(17)
    } else if one.len() + other.len() > 2 * MAX_RECORDS {
        Err(3)
    } else if room < 3 + 2 * one.len().min(other.len()) {
        Err(18)
    } else {
        Ok((one, other))
    }
}

pub fn merge(first: &[u8], second: &[u8], out: &mut [u8]) -> MergeReport {
    let (one, other) = match accepted(first, second, out.len()) {
        Ok(both) => both,
        Err(number) => {
            return MergeReport {
                refusal: number.into(),
                ..MergeReport::default()
            }
        }
    };
    let (header, body) = out.split_at_mut(3);
    let count = ((one.len() + other.len()) / 2) as u16;
    header[0] = 1;
    header[1..].copy_from_slice(&count.to_be_bytes());
    let pairs = one.chunks_exact(2).zip(other.chunks_exact(2));
    for (turn, (a, b)) in body.chunks_exact_mut(4).zip(pairs) {
        turn[..2].copy_from_slice(a);
        turn[2..].copy_from_slice(b);
    }
    let both = one.len().min(other.len());
    MergeReport {
        refusal: 0,
        file: u64::from(other.len() > one.len()),
        start: 3 + both as u64,
        length: (one.len().max(other.len()) - both) as u64,
    }
}
