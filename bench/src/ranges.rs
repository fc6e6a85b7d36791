//! Run on schedules with range queries: four threads in turns, a third of what they start queries; and one thread alone
//! that asks for all stations over so many bases, while stores and node numbers last.

use crate::{compare, FILES, SEED, SIZES};
use differential::library;
use differential::plan::Plan;
use differential::random::steady_ranges;
use differential::rng::Rng;
use reference::{sizes, INSERT, SPLIT};

const BASES: [usize; 3] = [1, 8, 32];

/// A file with so many bases of one station each, and queries over them all.
fn alone(rng: &mut Rng, bases: usize) -> Vec<u8> {
    let mut stations: Vec<u8> = (0..64).collect();
    while stations.len() > bases {
        stations.swap_remove(rng.below(stations.len()));
    }
    let mut plan = Plan::new(2);
    for &station in &stations {
        plan.alone(0, INSERT, station);
    }
    // each base is split in two until every station has one
    for round in 0..6 {
        for &station in stations.iter().step_by((bases >> round).max(1)) {
            plan.alone(0, SPLIT, station);
        }
    }
    while plan.left() >= bases && plan.stores_left() > 0 {
        plan.query(0, 0, 63);
    }
    plan.file()
}

fn run(files: &[Vec<u8>]) {
    let records = |file: &Vec<u8>| (file.len() - 3) / 4;
    let most = files.iter().map(records).max().expect("a file");
    let room = sizes(2)[2] * most;
    let (mut rows, mut rows2) = (vec![0; room], vec![0; room]);
    for file in files {
        let report = reference::run(file, &mut rows);
        assert_eq!((report.refusal, report.records), (0, records(file) as u64));
    }
    compare(
        "Run",
        files.iter().map(records).sum::<usize>() / files.len(),
        files,
        &mut |file| library::run(file, &mut rows).set,
        &mut |file| reference::run(file, &mut rows2).set,
    );
}

pub fn time() {
    let mut rng = Rng::new(SEED);
    println!("range queries, four threads");
    for size in SIZES {
        let files: Vec<Vec<u8>> = (0..FILES).map(|_| steady_ranges(&mut rng, size)).collect();
        run(&files);
    }
    for bases in BASES {
        println!("range queries alone over {bases} bases");
        let files: Vec<Vec<u8>> = (0..FILES).map(|_| alone(&mut rng, bases)).collect();
        run(&files);
    }
}
