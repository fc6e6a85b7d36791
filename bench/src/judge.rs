//! Times Judge of the library beside the reference's plain search, which remembers nothing, on histories of twelve
//! operations that were chosen to be hard, and looks for harder ones.

use differential::histories::{events, file};
use differential::library;
use differential::rng::Rng;
use reference::{EVENT, MAX_OPERATIONS};
use std::hint::black_box;
use std::time::Instant;

/// The slowest found for the library, and for the plain search, each by `speed search`.
const HARD: [(&str, &str); 2] = [
    ("slowest for the library", include_str!("../slowest-judged.txt")),
    ("slowest for a plain search", include_str!("../slowest-plain.txt")),
];
const SAMPLES: usize = 101;

type Judge = fn(&[u8]) -> reference::JudgeReport;

/// The times of some calls in order, in microseconds. Another history is judged before each, so that the processor has
/// not learnt this one's branches.
fn times(judge: Judge, history: &[u8], samples: usize) -> Vec<f64> {
    let mut rng = Rng::new(22);
    let others: Vec<Vec<u8>> = (0..16).map(|_| file(&events(&mut rng, MAX_OPERATIONS, 2, 4))).collect();
    let mut all: Vec<f64> = (0..samples)
        .map(|sample| {
            black_box(judge(black_box(&others[sample % others.len()])));
            let start = Instant::now();
            black_box(judge(black_box(history)));
            start.elapsed().as_secs_f64() * 1e6
        })
        .collect();
    all.sort_by(f64::total_cmp);
    all
}

fn median(judge: Judge, history: &[u8]) -> f64 {
    times(judge, history, SAMPLES)[SAMPLES / 2]
}

/// A history from the text form of docs/SCHEDULES.md.
fn parsed(text: &str) -> Vec<u8> {
    let lines = text.lines().map(|line| line.split('#').next().unwrap_or(""));
    let words = lines.map(|line| line.split_whitespace().collect::<Vec<_>>());
    let events: Vec<[u8; EVENT]> = words
        .filter(|words| !words.is_empty())
        .map(|words| {
            let action = ["lookup", "insert", "remove"].iter().position(|a| *a == words[1]);
            [
                words[0][1..].parse().expect("a thread"),
                1 + action.expect("an action") as u8,
                words[2].parse().expect("a station"),
                ["no", "yes"].iter().position(|a| words.get(3) == Some(a)).map_or(0, |a| 1 + a as u8),
            ]
        })
        .collect();
    file(&events)
}

pub fn compare() {
    println!("Judge, twelve operations on four threads, medians of {SAMPLES} calls");
    println!("{:30} {:>11} {:>16} {:>7}", "history", "library us", "plain search us", "ratio");
    for (name, text) in HARD {
        let history = parsed(text);
        assert_eq!(library::judge(&history), reference::judge(&history), "{name}");
        assert_eq!(library::judge(&history).operations as usize, MAX_OPERATIONS, "{name}");
        let (us, them) = (median(library::judge, &history), median(reference::judge, &history));
        println!("{name:30} {us:11.1} {them:16.1} {:7.3}", us / them);
    }
}

/// Looks for slow histories by small changes: `rounds` tries for the library, then for the plain search.
pub fn search(rounds: usize, seed: u64) {
    for (name, judge) in [
        ("slowest-judged", library::judge as Judge),
        ("slowest-plain", reference::judge as Judge),
    ] {
        let mut rng = Rng::new(seed);
        let (mut best, mut worst) = (events(&mut rng, MAX_OPERATIONS, 1, 4), 0.0);
        for _ in 0..rounds {
            let mut next = best.clone();
            if rng.once_in(8) {
                let stations = 1 + rng.below(3);
                next = events(&mut rng, MAX_OPERATIONS, stations, 4);
            }
            for _ in 0..rng.below(4) {
                change(&mut next, &mut rng);
            }
            let history = file(&next);
            if reference::operations(&history).map_or(0, |o| o.len()) != MAX_OPERATIONS {
                continue;
            }
            // the least of some calls: what else the machine does is left out
            if times(judge, &history, 7)[0] > worst {
                worst = times(judge, &history, 25)[0].max(worst);
                best = next;
            }
        }
        let report = library::judge(&file(&best));
        println!("# {name}: {worst:.1} us, accepted {}", report.accepted);
        for [thread, action, station, mark] in best {
            let action = ["lookup", "insert", "remove"][action as usize - 1];
            println!("t{thread} {action} {station}{}", ["", " no", " yes"][mark as usize]);
        }
    }
}

/// Another answer, another operation or another order of two events side by side.
fn change(events: &mut [[u8; EVENT]], rng: &mut Rng) {
    let at = rng.below(events.len() - 1);
    match rng.below(3) {
        0 if events[at][3] > 0 => events[at][3] = 3 - events[at][3],
        1 if events[at][0] != events[at + 1][0] => events.swap(at, at + 1),
        _ => {
            let thread = events[at][0];
            let start = (0..=at).rev().find(|&i| events[i][0] == thread && events[i][3] == 0);
            let end = (at..events.len()).find(|&i| events[i][0] == thread && events[i][3] > 0);
            let (action, station) = (1 + rng.below(3) as u8, rng.below(3) as u8);
            for i in [start, end].into_iter().flatten() {
                events[i][1] = action;
                events[i][2] = station;
            }
        }
    }
}
