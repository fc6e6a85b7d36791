//! Histories of known runs, and Judge against every permutation of the operations.

use reference::{history, judge, operations, JudgeReport, Operation, INSERT, LOOKUP, REMOVE};

fn file(events: &[[u8; 4]]) -> Vec<u8> {
    let mut bytes = vec![1];
    bytes.extend((events.len() as u16).to_be_bytes());
    bytes.extend(events.iter().flatten());
    bytes
}

fn accepted(order: &[u8]) -> JudgeReport {
    let mut report = JudgeReport {
        accepted: 1,
        operations: order.len() as u64,
        ..JudgeReport::default()
    };
    report.order[..order.len()].copy_from_slice(order);
    report
}

fn refused(refusal: u64) -> JudgeReport {
    JudgeReport {
        refusal,
        ..JudgeReport::default()
    }
}

#[test]
fn a_run_as_a_history() {
    let mut events = [170; 20];
    let report = history(&[1, 0, 4, 2, 9, 0, 0, 0, 0, 0, 0], &mut events);
    assert_eq!((report.refusal, report.length), (0, 11));
    assert_eq!(events[..12], [1, 0, 2, 0, 2, 9, 0, 0, 2, 9, 2, 170]);
    let report = history(&[1, 0, 4, 2, 9, 0, 0, 0, 0, 0, 0], &mut events[..18]);
    assert_eq!((report.refusal, report.length), (5, 0));
}

#[test]
fn an_empty_history_is_accepted() {
    assert_eq!(judge(&[1, 0, 0]), accepted(&[]));
}

#[test]
fn a_lookup_that_overlaps_an_insert_may_come_before_or_after_it() {
    for (mark, order) in [(1, [0, 1]), (2, [1, 0])] {
        let events = [[0, LOOKUP, 5, 0], [1, INSERT, 5, 0], [1, INSERT, 5, 2], [0, LOOKUP, 5, mark]];
        assert_eq!(judge(&file(&events)), accepted(&order));
    }
}

#[test]
fn a_finish_before_a_start_keeps_its_place() {
    let events = [[1, INSERT, 5, 0], [1, INSERT, 5, 2], [0, LOOKUP, 5, 0], [0, LOOKUP, 5, 1]];
    let report = judge(&file(&events));
    assert_eq!((report.refusal, report.accepted, report.operations), (0, 0, 2));
    assert_eq!(report.order, [0; 12]);
}

#[test]
fn the_refusals_in_their_order() {
    assert_eq!(judge(&[]), refused(1));
    assert_eq!(judge(&[2, 0]), refused(1));
    assert_eq!(judge(&[2, 0, 9]), refused(2));
    assert_eq!(judge(&[1, 0, 1]), refused(4));
    assert_eq!(judge(&file(&[[4, INSERT, 5, 0]])), refused(21));
    assert_eq!(judge(&file(&[[0, 0, 5, 0]])), refused(21));
    assert_eq!(judge(&file(&[[0, 4, 5, 0]])), refused(21));
    assert_eq!(judge(&file(&[[0, INSERT, 64, 0]])), refused(21));
    assert_eq!(judge(&file(&[[0, INSERT, 5, 3]])), refused(21));
    assert_eq!(judge(&file(&[[0, INSERT, 5, 1]])), refused(21));
    assert_eq!(judge(&file(&[[0, INSERT, 5, 0]])), refused(23));
    let mut events = Vec::new();
    for _ in 0..13 {
        events.extend([[0, LOOKUP, 5, 0], [0, LOOKUP, 5, 1]]);
    }
    assert_eq!(judge(&file(&events[..24])).accepted, 1);
    assert_eq!(judge(&file(&events[..25])), refused(22));
    assert_eq!(judge(&file(&events)), refused(22));
    events.push([0, LOOKUP, 5, 1]);
    assert_eq!(judge(&file(&events)), refused(21));
}

/// The first order among all permutations, each tried whole.
fn first_of_all(operations: &[Operation]) -> Option<Vec<u8>> {
    fn permute(left: &[u8], taken: &mut Vec<u8>, found: &mut dyn FnMut(&[u8]) -> bool) -> bool {
        if left.is_empty() {
            return found(taken);
        }
        left.iter().any(|&next| {
            taken.push(next);
            let rest: Vec<u8> = left.iter().copied().filter(|&n| n != next).collect();
            let ended = permute(&rest, taken, found);
            taken.pop();
            ended
        })
    }
    let fits = |order: &[u8]| {
        let mut set = [false; 64];
        let answers = order.iter().all(|&number| {
            let operation = &operations[number as usize];
            let inside = &mut set[operation.station as usize];
            let yes = *inside != (operation.action == INSERT);
            *inside = operation.action == INSERT || *inside && operation.action != REMOVE;
            yes == operation.yes
        });
        let keeps = (0..order.len()).all(|i| {
            (i + 1..order.len()).all(|j| {
                operations[order[j] as usize].finish > operations[order[i] as usize].start
            })
        });
        answers && keeps
    };
    let mut first = None;
    let all: Vec<u8> = (0..operations.len() as u8).collect();
    permute(&all, &mut Vec::new(), &mut |order| {
        let found = fits(order);
        if found {
            first = Some(order.to_vec());
        }
        found
    });
    first
}

#[test]
fn the_first_of_all_permutations() {
    let mut state = 1u64;
    let mut below = |limit: u64| {
        state = state.wrapping_mul(6364136223846793005).wrapping_add(1442695040888963407);
        (state >> 33) % limit
    };
    let (mut yes, mut no) = (0, 0);
    for _ in 0..3000 {
        let most = 1 + below(6);
        let mut open: [Option<[u8; 3]>; 4] = [None; 4];
        let mut events = Vec::new();
        let mut started = 0;
        while started < most || open.iter().any(Option::is_some) {
            let thread = below(4) as usize;
            match open[thread].take() {
                Some([t, a, s]) => events.push([t, a, s, 1 + below(2) as u8]),
                None if started < most => {
                    let asked = [thread as u8, 1 + below(3) as u8, below(2) as u8];
                    open[thread] = Some(asked);
                    events.push([asked[0], asked[1], asked[2], 0]);
                    started += 1;
                }
                None => {}
            }
        }
        let history = file(&events);
        let operations = operations(&history).expect("it is in form");
        let report = judge(&history);
        match first_of_all(&operations) {
            Some(order) => {
                yes += 1;
                assert_eq!(report, accepted(&order));
            }
            None => {
                no += 1;
                assert_eq!((report.accepted, report.order), (0, [0; 12]));
            }
        }
    }
    assert!(yes > 500 && no > 500, "{yes} accepted, {no} not");
}
