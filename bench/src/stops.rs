//! Run and List on schedules of version 3: as those of version 2, and below so many routes, where most searches are counted
//! and most joins stopped.

use crate::{compare, runs_and_lists, FILES, SEED, SIZES};
use differential::library;
use differential::plan::Plan;
use differential::rng::Rng;
use differential::stop_files::chain;
use reference::{sizes, INSERT, JOIN, LOOKUP, REMOVE};

const ROUTES: [u8; 2] = [8, 16];
const RECORDS: usize = 2048;
/// The most turns that a thread has before another comes.
const BURST: usize = 20;
/// Only lookups are started once fewer node numbers are left.
const SPARE: usize = 16;

/// A chain of routes, then turns of four threads at its last four bases, with a join higher up now and then.
fn below(rng: &mut Rng, routes: u8) -> Vec<u8> {
    let mut plan = Plan::new(3);
    chain(&mut plan, routes);
    let (mut thread, mut burst) = (0, 0);
    while plan.count() < RECORDS {
        if burst == 0 {
            (thread, burst) = (rng.below(4) as u8, 1 + rng.below(BURST));
        }
        burst -= 1;
        if !plan.is_idle(thread) {
            plan.step(thread);
            continue;
        }
        let action = if plan.left() < SPARE { LOOKUP } else { rng.pick(&[LOOKUP, LOOKUP, INSERT, REMOVE, JOIN]) };
        let station = if action == JOIN { 3 } else { routes - rng.below(4) as u8 };
        plan.start(thread, action, station);
    }
    plan.file()
}

pub fn time() {
    let mut rng = Rng::new(SEED);
    println!("version 3");
    for size in SIZES {
        runs_and_lists(3, size, &mut rng);
    }
    let room = sizes(3)[2] * RECORDS;
    for routes in ROUTES {
        println!("version 3 below {routes} routes");
        let files: Vec<Vec<u8>> = (0..FILES).map(|_| below(&mut rng, routes)).collect();
        let (mut rows, mut rows2) = (vec![0; room], vec![0; room]);
        for file in &files {
            let report = reference::run(file, &mut rows);
            assert_eq!((report.refusal, report.records), (0, RECORDS as u64));
        }
        compare(
            "Run",
            RECORDS,
            &files,
            &mut |file| library::run(file, &mut rows).set,
            &mut |file| reference::run(file, &mut rows2).set,
        );
    }
}
