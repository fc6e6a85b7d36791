//! What the tally of a long file meets, whatever way it is counted: files of more than 384 records of every length over whole blocks of 64, from the
//! second record on, and at either end of a block starts and steps of another thread than the one before. So a count that goes by blocks, or looks
//! from one record to the next, is compared at each edge.

use crate::compare::version_index;
use reference::sizes;

const VERSIONS: usize = 3;
/// Records of a block, and up to how many a file counts as a short one.
const BLOCK: usize = 64;
const SHORT: usize = 384;
const THREADS: usize = 4;

/// What stands at the edge of a block.
const EDGES: [&str; 4] = ["a start first", "another thread's step first", "a start last", "another thread's step last"];

pub struct Blocks {
    /// Files by version and by the length of their last block, 0 for a whole one.
    last: [[u64; BLOCK]; VERSIONS],
    /// Edges by version, kind and thread.
    edges: [[[u64; THREADS]; EDGES.len()]; VERSIONS],
    /// Blocks of nothing but steps of the thread before, by version.
    quiet: [u64; VERSIONS],
}

impl Default for Blocks {
    fn default() -> Self {
        Blocks { last: [[0; BLOCK]; VERSIONS], edges: [[[0; THREADS]; EDGES.len()]; VERSIONS], quiet: [0; VERSIONS] }
    }
}

impl Blocks {
    /// A file of which so many records were carried out.
    pub fn file(&mut self, file: &[u8], records: u64) {
        let records = records as usize;
        if records <= SHORT {
            return;
        }
        let (version, width) = (version_index(file), sizes(file[0])[0]);
        let first: Vec<u8> = (0..records).map(|k| file[3 + width * k]).collect();
        self.last[version][(records - 1) % BLOCK] += 1;
        let turns = |k: usize| first[k] != first[k - 1] & 0x30;
        for block in (1..records).step_by(BLOCK) {
            let end = records.min(block + BLOCK);
            self.quiet[version] += u64::from(!(block..end).any(turns));
            for (edge, k) in [(0, block), (2, end - 1)] {
                if turns(k) {
                    let step = usize::from(first[k] % 16 == 0);
                    self.edges[version][edge + step][usize::from(first[k] / 16)] += 1;
                }
            }
        }
    }

    /// Prints what was reached; adds what was not.
    pub fn report(&self, missing: &mut Vec<String>) {
        for version in 0..VERSIONS {
            let files: u64 = self.last[version].iter().sum();
            println!("version {}: {files} long files, {} blocks of one thread's steps alone", version + 1, self.quiet[version]);
            let mut need = |count: u64, what: String| {
                if count == 0 {
                    missing.push(format!("version {}, long files: {what}", version + 1));
                }
            };
            need(self.quiet[version], "a block of one thread's steps alone".into());
            for (length, &count) in self.last[version].iter().enumerate() {
                need(count, format!("a last block of {length} records"));
            }
            for (edge, threads) in self.edges[version].iter().enumerate() {
                for (thread, &count) in threads.iter().enumerate() {
                    need(count, format!("{}, of thread {thread}", EDGES[edge]));
                }
            }
        }
    }
}
