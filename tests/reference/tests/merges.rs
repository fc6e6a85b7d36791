//! Merges worked out by hand from the paper's request e, and its limits.

use reference::{merge, MergeReport};

const OLD: u8 = 0xAA;

fn file(records: &[u8]) -> Vec<u8> {
    let count = (records.len() / 2) as u16;
    [&[1], &count.to_be_bytes()[..], records].concat()
}

/// The report and the buffer after a merge into so many bytes.
fn merged(first: &[u8], second: &[u8], room: usize) -> (MergeReport, Vec<u8>) {
    let mut out = vec![OLD; room];
    (merge(first, second, &mut out), out)
}

fn part(file: u64, start: u64, length: u64) -> MergeReport {
    MergeReport {
        refusal: 0,
        file,
        start,
        length,
    }
}

#[test]
fn records_are_taken_in_turns() {
    let (one, other) = (file(&[2, 9, 0, 0, 17, 5]), file(&[50, 7, 48, 0, 35, 9]));
    let all = vec![1, 0, 6, 2, 9, 50, 7, 0, 0, 48, 0, 17, 5, 35, 9];
    assert_eq!(merged(&one, &other, 15), (part(0, 9, 0), all));
    assert_eq!(
        merged(&file(&[]), &file(&[]), 3),
        (part(0, 3, 0), vec![1, 0, 0])
    );
}

#[test]
fn what_is_left_over_is_a_part_of_the_longer_file() {
    let (one, other) = (file(&[2, 9, 0, 0, 17, 5]), file(&[50, 7, 48, 0, 35, 9]));
    assert_eq!(
        merged(&one, &file(&[32, 0]), 9),
        (part(0, 5, 4), vec![1, 0, 4, 2, 9, 32, 0, OLD, OLD])
    );
    assert_eq!(merged(&one, &file(&[]), 3), (part(0, 3, 6), vec![1, 0, 3]));
    assert_eq!(
        merged(&file(&[31, 255]), &other, 8),
        (part(1, 5, 4), vec![1, 0, 4, 31, 255, 50, 7, OLD])
    );
    assert_eq!(
        merged(&file(&[]), &other, 3),
        (part(1, 3, 6), vec![1, 0, 3])
    );
}

#[test]
fn refusals_come_in_order_and_write_nothing() {
    let (one, other) = (file(&[2, 9]), file(&[50, 7]));
    let long = |records: usize, first: u8| file(&[first, 0].repeat(records));
    let cases: [(Vec<u8>, Vec<u8>, usize, u64); 17] = [
        (vec![1, 0], vec![2, 0, 0], 1, 1),
        (vec![0, 0, 0], vec![], 1, 2),
        (vec![2, 0, 0], other.clone(), 99, 2),
        (vec![3, 0, 0], other.clone(), 99, 2),
        (vec![1, 16, 1], vec![], 0, 3),
        (vec![1, 0, 1, 0], vec![], 0, 4),
        (one.clone(), vec![], 3, 1),
        (one.clone(), vec![2, 0, 0], 3, 2),
        (other.clone(), vec![3, 0, 0], 0, 2),
        (one.clone(), vec![1, 255, 255], 0, 3),
        (one.clone(), vec![1, 0, 0, 0], 0, 4),
        (file(&[0, 0, 32, 0]), other.clone(), 99, 17),
        (one.clone(), file(&[32, 0, 31, 0]), 0, 17),
        (long(4096, 0), file(&[64, 0]), 0, 17),
        (long(4096, 0), file(&[32, 0]), 0, 3),
        (long(2048, 0), long(2049, 32), 9000, 3),
        (one.clone(), other.clone(), 6, 18),
    ];
    for (first, second, room, refusal) in cases {
        let refused = MergeReport {
            refusal,
            ..MergeReport::default()
        };
        assert_eq!(
            merged(&first, &second, room),
            (refused, vec![OLD; room]),
            "{refusal}"
        );
    }
    let full = merged(&long(2048, 0), &long(2048, 32), 8195).0;
    assert_eq!(full, part(0, 4099, 0));
}
