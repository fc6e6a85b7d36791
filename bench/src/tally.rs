//! Run with a tally beside Run, both of the library, on the same schedules.

use crate::{compare, FILES, SEED, SIZES};
use differential::library;
use differential::random::steady;
use differential::rng::Rng;
use reference::{sizes, TALLY_CELLS};

/// Prints a line for each version and size; the ratio is Tally's time over Run's.
pub fn time() {
    let mut rng = Rng::new(SEED);
    println!("Run with a tally beside Run, both of the library");
    println!("      records     Tally ns         Run ns     Tally ns/record   ratio");
    for version in [1, 2, 3] {
        println!("version {version}");
        for size in SIZES {
            let room = sizes(version)[2];
            let files: Vec<Vec<u8>> = (0..FILES).map(|_| steady(&mut rng, version, size, false)).collect();
            let (mut rows, mut rows2) = (vec![0; room * size], vec![0; room * size]);
            let mut tally = [0; TALLY_CELLS];
            compare(
                "Tally",
                size,
                &files,
                &mut |file| {
                    let (report, refusal) = library::tally(file, &mut rows, &mut tally);
                    assert_eq!(refusal, 0, "the tally is full");
                    report.set
                },
                &mut |file| library::run(file, &mut rows2).set,
            );
        }
    }
}
