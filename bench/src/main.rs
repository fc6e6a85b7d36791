//! Times Run and List, on files of each version, Run on files of many splits and with range queries, and Merge of the library and of the
//! reference on the same schedules, in turn, and prints the medians and their ratio for each size. Buffers are lent as they are, not cleared
//! between calls. Then State after all records, Judge, on hard histories, the one-writer run on files of one writer, and Run with a tally beside
//! Run. `speed splits`, `speed ranges`, `speed stops` (version 3), `speed state`, `speed judge`, `speed one-writer` and `speed tally` do only
//! those; `speed search N SEED` looks for harder histories with N tries.

mod judge;
mod ranges;
mod splits;
mod state;
mod stops;
mod tally;

use differential::library;
use differential::merges::whole;
use differential::random::steady;
use differential::rng::Rng;
use reference::sizes;
use std::hint::black_box;
use std::time::{Duration, Instant};

const SIZES: [usize; 5] = [1, 16, 256, 1024, 4096];
/// Records of two files together, as many in each.
const MERGES: [usize; 3] = [32, 512, 4096];
/// Schedules of each size; every sample goes over all of them.
const FILES: usize = 32;
/// Samples of each size and each implementation; an odd number has a median.
const SAMPLES: usize = 201;
/// About as long as one sample takes.
const SAMPLE: Duration = Duration::from_micros(1500);
const SEED: u64 = 0x0062_656E_6368;

type Operation<'a> = &'a mut dyn FnMut(&[u8]) -> u64;

/// The time of so many rounds over all files, in nanoseconds for one call.
fn sample(files: &[Vec<u8>], rounds: usize, operation: Operation) -> f64 {
    let start = Instant::now();
    for _ in 0..rounds {
        for file in files {
            black_box(operation(black_box(file)));
        }
    }
    start.elapsed().as_secs_f64() * 1e9 / (rounds * files.len()) as f64
}

fn median(mut values: Vec<f64>) -> f64 {
    values.sort_by(f64::total_cmp);
    values[values.len() / 2]
}

/// Times both in turn and prints a line.
fn compare(name: &str, size: usize, files: &[Vec<u8>], ours: Operation, theirs: Operation) {
    for file in files {
        assert_eq!(
            ours(file),
            theirs(file),
            "{name} differs on a file of {size} records"
        );
    }
    let once = sample(files, 1, ours)
        .max(sample(files, 1, theirs))
        .max(1.0);
    let rounds = (SAMPLE.as_nanos() as f64 / (once * files.len() as f64)).ceil() as usize;
    let (mut our, mut their) = (Vec::new(), Vec::new());
    for _ in 0..SAMPLES {
        our.push(sample(files, rounds, ours));
        their.push(sample(files, rounds, theirs));
    }
    let (our, their) = (median(our), median(their));
    let each = our / size as f64;
    let ratio = our / their;
    println!("{name:5} {size:7} {our:12.0} {their:14.0} {each:18.1} {ratio:7.2}");
}

fn main() {
    let words: Vec<String> = std::env::args().skip(1).collect();
    match words.iter().map(String::as_str).collect::<Vec<_>>()[..] {
        [] => {
            schedules();
            state::time();
            judge::compare();
            one_writer();
            tally::time();
        }
        ["splits"] => {
            heading();
            splits::time();
        }
        ["ranges"] => {
            heading();
            ranges::time();
        }
        ["stops"] => {
            heading();
            stops::time();
        }
        ["state"] => {
            heading();
            state::time();
        }
        ["judge"] => judge::compare(),
        ["one-writer"] => one_writer(),
        ["tally"] => tally::time(),
        ["search", rounds, seed] => judge::search(
            rounds.parse().expect("a number of tries"),
            seed.parse().expect("a seed"),
        ),
        _ => panic!("usage: speed [splits | ranges | stops | state | judge | one-writer | tally | search N SEED]"),
    }
}

fn heading() {
    println!(
        "medians of {SAMPLES} samples over {FILES} schedules, buffers not cleared between calls"
    );
    println!("      records   library ns   reference ns   library ns/record   ratio");
}

fn schedules() {
    heading();
    let mut rng = Rng::new(SEED);
    for version in [1, 2] {
        println!("version {version}");
        for size in SIZES {
            runs_and_lists(version, size, &mut rng);
        }
    }
    splits::time();
    ranges::time();
    stops::time();
    for size in MERGES {
        // both files of a pair, one after the other
        let pairs: Vec<Vec<u8>> = (0..FILES)
            .map(|_| [whole(size / 2, 0, &mut rng), whole(size / 2, 2, &mut rng)].concat())
            .collect();
        let (mut out, mut out2) = (vec![0; 3 + 2 * size], vec![0; 3 + 2 * size]);
        compare(
            "Merge",
            size,
            &pairs,
            &mut |pair| {
                let (first, second) = pair.split_at(pair.len() / 2);
                library::merge(first, second, &mut out).start
            },
            &mut |pair| {
                let (first, second) = pair.split_at(pair.len() / 2);
                reference::merge(first, second, &mut out2).start
            },
        );
    }
}

/// The one-writer run on files of one writer, none of whose records is barred.
fn one_writer() {
    println!("the one-writer run, no record barred");
    heading();
    let mut rng = Rng::new(SEED);
    for version in [1, 2] {
        println!("version {version}");
        let room = sizes(version)[2];
        for size in SIZES {
            let files: Vec<Vec<u8>> = (0..FILES).map(|_| steady(&mut rng, version, size, true)).collect();
            let (mut rows, mut rows2) = (vec![0; room * size], vec![0; room * size]);
            compare(
                "One",
                size,
                &files,
                &mut |file| library::run_one_writer(file, &mut rows).set,
                &mut |file| reference::run_one_writer(file, &mut rows2).set,
            );
        }
    }
}

/// Run and List on files of one version and size.
fn runs_and_lists(version: u8, size: usize, rng: &mut Rng) {
    let [_, _, room, text_room] = sizes(version);
    let files: Vec<Vec<u8>> = (0..FILES).map(|_| steady(rng, version, size, false)).collect();
    assert!(files
        .iter()
        .all(|file| reference::run(file, &mut vec![0; room * size]).records == size as u64));
    let (mut rows, mut rows2) = (vec![0; room * size], vec![0; room * size]);
    compare(
        "Run",
        size,
        &files,
        &mut |file| library::run(file, &mut rows).set,
        &mut |file| reference::run(file, &mut rows2).set,
    );
    let (mut text, mut text2) = (vec![0; text_room], vec![0; text_room]);
    compare(
        "List",
        size,
        &files,
        &mut |file| library::list(file, &mut text).length,
        &mut |file| reference::list(file, &mut text2).length,
    );
}
