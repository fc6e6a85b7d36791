//! Request i: how many steps of its own a lookup takes.

use reference::{Bench, Depths, Node, NoDepths, Rows, StopRows, CAPACITY, MAX_RECORDS};
use reference::{INSERT, JOIN, LOOKUP, RANGE, REMOVE, SPLIT};

/// No lookup takes more (crates/polls); with the stop on.
const MOST: usize = 64;
const STOP_MOST: usize = 66;

/// A bench, how many records it has carried out, and the steps of each thread's last operation.
struct Run<D: Depths> {
    bench: Bench<D>,
    records: usize,
    steps: [usize; 4],
}

impl<D: Depths> Run<D> {
    fn new() -> Self {
        Run {
            bench: Bench::new(),
            records: 0,
            steps: [0; 4],
        }
    }

    fn start(&mut self, thread: u8, action: u8, station: u8) {
        let upper = if action == RANGE { 63 } else { 0 };
        assert_eq!(
            self.bench.record(16 * thread + action, station, upper),
            Ok(None)
        );
        self.records += 1;
        self.steps[thread as usize] = 0;
    }

    /// One step: whether it adds the row, or the refusal.
    fn step(&mut self, thread: u8) -> Result<bool, u8> {
        let row = self.bench.record(16 * thread, 0, 0)?;
        self.records += 1;
        self.steps[thread as usize] += 1;
        Ok(row.is_some())
    }

    fn finish(&mut self, thread: u8) -> usize {
        while !self.step(thread).unwrap() {}
        self.steps[thread as usize]
    }

    fn alone(&mut self, action: u8, station: u8) {
        self.start(0, action, station);
        self.finish(0);
    }

    /// The numbers of all routes made.
    fn routes(&self) -> Vec<usize> {
        let is_route = |id: &usize| matches!(self.bench.node(*id as u8), Node::Route(_));
        (0..self.bench.used()).filter(is_route).collect()
    }

    /// The numbers of the routes that a search reads from this one on.
    fn read_from(&self, mut id: u8, station: u8) -> Vec<usize> {
        let mut read = Vec::new();
        while let Node::Route(route) = self.bench.node(id) {
            read.push(id.into());
            id = route.child(station);
        }
        read
    }

    /// A route more: t0 inserts the station beside 1 and splits their base.
    fn deepen(&mut self, station: u8) {
        self.alone(INSERT, station);
        self.alone(SPLIT, 1);
    }
}

/// A chain of 63 routes, and a lookup at its end.
fn over_63_routes<D: Depths>() -> usize {
    let mut run = Run::<D>::new();
    run.alone(INSERT, 1);
    for station in (2..64).rev() {
        run.deepen(station);
    }
    // the last route is to the left of 1: 0 is looked up where it is not
    run.alone(INSERT, 0);
    run.alone(SPLIT, 0);
    assert_eq!((run.bench.used(), run.routes().len()), (254, MOST - 1));
    assert!(
        run.records > MAX_RECORDS,
        "in one file it would be an example"
    );
    run.start(1, LOOKUP, 0);
    run.finish(1)
}

#[test]
fn the_longest_lookup_takes_64_steps_and_66_with_the_stop_on() {
    assert_eq!(over_63_routes::<NoDepths>(), MOST);
    assert_eq!(over_63_routes::<StopRows>(), STOP_MOST);
}

/// examples/longest-lookup.txt, longest-lookup-3.txt: a lookup's steps and the records.
fn over_61_routes<D: Depths>() -> (usize, usize) {
    let mut run = Run::<D>::new();
    run.alone(INSERT, 0);
    run.alone(INSERT, 63);
    run.alone(SPLIT, 0);
    run.start(1, LOOKUP, 1);
    assert_eq!(run.step(1), Ok(false));
    run.alone(INSERT, 1);
    run.alone(SPLIT, 1);
    for root in [63, 0, 63, 0, 63] {
        run.alone(JOIN, root);
        run.alone(SPLIT, 1);
    }
    for station in (9..63).rev() {
        run.deepen(station);
    }
    // every route that was made is on its way, at numbers that rise (docs/images/longest-lookup.svg)
    assert_eq!(run.read_from(3, 1), run.routes());
    assert_eq!(run.routes()[..8], [3, 7, 13, 19, 25, 31, 37, 41]);
    assert_eq!((run.routes().len(), run.routes()[60]), (61, 253));
    let steps = run.finish(1);
    assert_eq!(run.bench.used(), CAPACITY);
    (steps, run.records)
}

#[test]
fn the_longest_lookup_known_in_one_file_takes_62_and_64_with_the_stop_on() {
    assert_eq!(over_61_routes::<NoDepths>(), (62, 3852));
    assert_eq!(over_61_routes::<StopRows>(), (64, 4051));
}

/// Random turns of four threads, two of them with lookups only, over trees that are split and joined all the time; in versions 2
/// and 3 range queries put their bases into them.
fn takes_no_more<D: Depths>(limit: usize) {
    let mut dice = 0x5eed_u64;
    let mut below = |limit: u64| {
        dice ^= dice << 13;
        dice ^= dice >> 7;
        dice ^= dice << 17;
        (dice >> 11) % limit
    };
    let mut most = 0;
    for _ in 0..400 {
        let mut run = Run::<D>::new();
        for _ in 0..3000 {
            // t3 is slow: much happens between two of its steps
            let thread = [0, 0, 0, 1, 1, 1, 2, 2, 3][below(9) as usize];
            if run.bench.place(thread as usize) == 0 {
                let action = if thread > 1 {
                    LOOKUP
                } else {
                    let some = [INSERT, INSERT, REMOVE, SPLIT, SPLIT, JOIN, RANGE];
                    some[below(if D::LAST == RANGE { 7 } else { 6 }) as usize]
                };
                run.start(thread, action, below(64) as u8);
            } else {
                match run.step(thread) {
                    Ok(true) if thread > 1 => most = most.max(run.steps[thread as usize]),
                    Ok(_) => assert!(
                        thread < 2 || run.steps[thread as usize] < limit,
                        "a lookup has no row after {limit} steps"
                    ),
                    Err(number) => {
                        assert!(
                            thread < 2 && (number == 13 || number == 16),
                            "a lookup's step is refused with {number}"
                        );
                        break;
                    }
                }
            }
        }
        assert!(run.routes().len() < MOST, "more than 63 routes");
    }
    assert!(most > 8, "the trees were not deep: {most}");
}

#[test]
fn no_lookup_takes_more() {
    takes_no_more::<NoDepths>(MOST);
    takes_no_more::<Rows>(MOST);
    takes_no_more::<StopRows>(STOP_MOST);
}
