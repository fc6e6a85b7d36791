//! State after all records, on schedules of each version, and on full benches: schedules that use all node numbers and, from
//! version 2 on, all stores, whose states fill the buffer.

use crate::{compare, FILES, SEED, SIZES};
use differential::library;
use differential::plan::Plan;
use differential::random::{steady, steady_ranges};
use differential::rng::Rng;
use reference::{INSERT, STATE_ROOM};

/// Queries while stores last, then inserts while numbers last.
fn full(rng: &mut Rng, version: u8) -> Vec<u8> {
    let mut plan = Plan::new(version);
    while version > 1 && plan.stores_left() > 0 {
        plan.query(0, 0, 63);
    }
    while plan.left() > 0 {
        plan.alone(0, INSERT, rng.below(64) as u8);
    }
    plan.file()
}

fn time_of(size: usize, files: &[Vec<u8>]) {
    let (mut ours, mut theirs) = (vec![0; STATE_ROOM], vec![0; STATE_ROOM]);
    for file in files {
        let (our, their) = (library::state(file, u64::MAX, &mut ours), reference::state(file, u64::MAX, &mut theirs));
        let length = their.length as usize;
        assert_eq!((our, &ours[..length]), (their, &theirs[..length]), "State differs on a file of {size} records");
    }
    compare(
        "State",
        size,
        files,
        &mut |file| library::state(file, u64::MAX, &mut ours).length,
        &mut |file| reference::state(file, u64::MAX, &mut theirs).length,
    );
}

pub fn time() {
    let mut rng = Rng::new(SEED);
    for version in [1, 2, 3] {
        println!("State, version {version}");
        for size in SIZES {
            let files: Vec<Vec<u8>> = (0..FILES).map(|_| steady(&mut rng, version, size, false)).collect();
            time_of(size, &files);
        }
    }
    println!("State, range queries, four threads");
    for size in SIZES {
        let files: Vec<Vec<u8>> = (0..FILES).map(|_| steady_ranges(&mut rng, size)).collect();
        time_of(size, &files);
    }
    for version in [1, 2, 3] {
        println!("State, version {version}, all numbers used");
        let files: Vec<Vec<u8>> = (0..FILES).map(|_| full(&mut rng, version)).collect();
        let width = if version == 1 { 2 } else { 4 };
        time_of((files[0].len() - 3) / width, &files);
    }
}
