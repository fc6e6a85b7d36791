//! Run on schedules of many splits: so many stations in one base, split and joined again while node numbers last.

use crate::{compare, FILES, SEED};
use differential::library;
use differential::plan::Plan;
use differential::rng::Rng;
use reference::{INSERT, JOIN, SPLIT};

const STATIONS: [usize; 3] = [64, 8, 2];
/// Node numbers that a split and a join take together.
const ROUND: usize = 6;

/// A file of version 1; each round is as long as any other, since the least station is on the left.
fn file(rng: &mut Rng, stations: usize) -> Vec<u8> {
    let mut chosen: Vec<u8> = (0..64).collect();
    while chosen.len() > stations {
        chosen.swap_remove(rng.below(chosen.len()));
    }
    let least = *chosen.iter().min().expect("a station");
    let mut plan = Plan::new(1);
    for station in chosen {
        plan.alone(0, INSERT, station);
    }
    while plan.left() >= ROUND {
        plan.alone(0, SPLIT, least);
        plan.alone(0, JOIN, least);
    }
    plan.file()
}

pub fn time() {
    let mut rng = Rng::new(SEED);
    for stations in STATIONS {
        println!("splits of {stations} stations");
        let files: Vec<Vec<u8>> = (0..FILES).map(|_| file(&mut rng, stations)).collect();
        let records = (files[0].len() - 3) / 2;
        let (mut rows, mut rows2) = (vec![0; 2 * records], vec![0; 2 * records]);
        compare(
            "Run",
            records,
            &files,
            &mut |file| library::run(file, &mut rows).set,
            &mut |file| reference::run(file, &mut rows2).set,
        );
    }
}
