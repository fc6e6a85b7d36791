//! The coverage table: every place, every turn from place to place, every case of the check, every answer, every
//! refusal; what must be reached.

use reference::{
    Counter, ACTIONS, ANSWERS, CHECKS, INSERT, JOIN, PLACES, PLACE_LIMIT, RANGE, RANGE_PLACES, REMOVE, SPLIT,
    STOP_PLACES,
};

/// The swaps that need new node numbers and can be short of them; those of version 2, and those that can be short of
/// stores.
const FULL_PLACES: [u8; 7] = [10, 11, 13, 25, 27, 29, 35];
const RANGE_FULL_PLACES: [u8; 5] = [64, 65, 67, 78, 80];
const NO_STORE_PLACES: [u8; 3] = [64, 65, 67];

/// The answers of splits and joins and the places that they can come from. A split never says 5 or 6, which come
/// from places of joins alone, neither says 0, and only version 3 stops joins (7).
const REASONS: [(u8, u8, &[u8]); 10] = [
    (SPLIT, 1, &[10, 11, 13]),
    (SPLIT, 2, &[3]),
    (SPLIT, 3, &[3]),
    (SPLIT, 4, &[10, 11, 12, 13]),
    (JOIN, 1, &[40, 51]),
    (JOIN, 2, &[3]),
    (JOIN, 3, &[3]),
    (JOIN, 4, &[21, 25]),
    (JOIN, 5, &[24]),
    (JOIN, 6, &[38]),
];

const STOPPED: (u8, u8, &[u8]) = (JOIN, 7, &[19]);

/// Who checks a base, and where: every case must come up for each; the last one, a range base, in version 2.
const CHECKED: [(u8, u8); 5] = [(INSERT, 3), (REMOVE, 3), (SPLIT, 3), (JOIN, 3), (JOIN, 24)];

/// Turns from place to place that matter by themselves: kills, help, lost swaps, aborted joins.
/// 0 stands for a finish.
const TURNS: [(u8, u8, &str); 24] = [
    (3, 1, "an update meets a main whose join is done"),
    (3, 16, "an update meets a join to kill"),
    (3, 40, "an update meets a join to help"),
    (10, 15, "an update loses the root"),
    (11, 15, "an update loses on the left"),
    (12, 15, "an update's base is gone"),
    (13, 15, "an update loses on the right"),
    (15, 1, "a replaceable base is gone"),
    (21, 0, "a join's base is gone"),
    (24, 0, "a join meets a join"),
    (25, 0, "a join loses its base"),
    (27, 38, "a join loses its neighbour on the left"),
    (28, 38, "a join's neighbour is gone"),
    (29, 38, "a join loses its neighbour on the right"),
    (30, 38, "the parent is marked"),
    (33, 37, "the grandparent is marked"),
    (35, 36, "killed late, with a grandparent"),
    (35, 37, "killed late, with none"),
    (40, 0, "the owner finds the join done"),
    (40, 1, "a helper finds the join done"),
    (43, 45, "the union node is in already"),
    (48, 50, "the parent is out already"),
    (51, 0, "the owner ends the join"),
    (51, 1, "a helper ends the join"),
];

/// The refusals of Run and, with the text buffer, of List.
const REFUSALS: std::ops::RangeInclusive<u8> = 1..=16;

/// Refusals that a version's files cannot get: depths and queries come with version 2, and a file of version 2 or 3 has no
/// other.
const NEVER: [&[u8]; 3] = [&[14, 15, 16], &[2], &[2]];

/// Prints the table of version 1 (0), 2 (1) or 3 (2); hands back what was never reached.
pub fn report(index: usize, counter: &Counter) -> Vec<String> {
    let mut missing = Vec::new();
    let mut need = |count: u64, what: String| {
        if count == 0 {
            missing.push(format!("version {}: {what}", index + 1));
        }
        count
    };
    println!("version {}", index + 1);
    println!("place      reached  led to (0: finished)");
    let deep = index > 0;
    let ranges = if deep { &RANGE_PLACES[..] } else { &[] };
    let stops = if index == 2 { &STOP_PLACES[..] } else { &[] };
    for &place in PLACES.iter().chain(ranges).chain(stops) {
        let turns: Vec<String> = (0..PLACE_LIMIT as u8)
            .filter(|&next| counter.turn(place, next) > 0)
            .map(|next| format!("{next}: {}", counter.turn(place, next)))
            .collect();
        let count = need(counter.place(place), format!("place {place}"));
        println!("{place:5} {count:12}  {}", turns.join(", "));
    }
    println!("check      reached");
    for (action, place) in CHECKED {
        let name = ACTIONS[usize::from(action)];
        let counts: Vec<String> = CHECKS
            .iter()
            .take(if deep { CHECKS.len() } else { CHECKS.len() - 1 })
            .enumerate()
            .map(|(case, word)| {
                let count = counter.checks_at(action, case, place);
                let what = format!("the case {word} in the check at place {place}, {name}");
                format!("{word}: {}", need(count, what))
            })
            .collect();
        println!("{name:>7} {place:2} {}", counts.join(", "));
    }
    println!("answer     reached");
    for (action, name) in (1..).zip(&ACTIONS[1..]).filter(|&(action, _)| deep || action < RANGE) {
        let counts: Vec<String> = (0..ANSWERS as u8)
            .filter(|&answer| counter.answers(action, answer) > 0)
            .map(|answer| format!("{answer}: {}", counter.answers(action, answer)))
            .collect();
        println!("{name:>7}    {}", counts.join(", "));
    }
    for (action, answer, places) in REASONS.into_iter().chain((index == 2).then_some(STOPPED)) {
        let name = ACTIONS[usize::from(action)];
        for &place in places {
            need(
                counter.answers_at(action, answer, place),
                format!("answer {answer} of a {name} at place {place}"),
            );
        }
    }
    println!("refusal    reached");
    for number in REFUSALS.filter(|number| !NEVER[index].contains(number)) {
        println!(
            "{number:7} {:10}",
            need(counter.refusals(number), format!("refusal {number}"))
        );
    }
    let numbers = FULL_PLACES.into_iter().map(|place| (13, place));
    let ranges = RANGE_FULL_PLACES.into_iter().map(|place| (13, place));
    let stores = NO_STORE_PLACES.into_iter().map(|place| (16, place));
    let more = ranges.chain(stores).filter(|_| deep);
    for (number, place) in numbers.chain(more) {
        let what = format!("refusal {number} at place {place}");
        println!(
            "{what}: {}",
            need(counter.refusals_at(number, place), what.clone())
        );
    }
    for (place, next, meaning) in TURNS {
        need(
            counter.turn(place, next),
            format!("the turn from {place} to {next} ({meaning})"),
        );
    }
    missing
}
