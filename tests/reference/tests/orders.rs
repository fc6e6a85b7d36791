//! Request m: inserts and removes on different stations, each run alone from an idle state, in other orders.

use reference::{Bench, Depths, NoDepths, Observer, Rows, CAPACITY, DEEPEST, INSERT, JOIN, LOOKUP, REMOVE, SPLIT};

/// Random numbers, the same in every run of the tests.
struct Dice(u64);

impl Dice {
    fn below(&mut self, limit: usize) -> usize {
        self.0 ^= self.0 << 13;
        self.0 ^= self.0 >> 7;
        self.0 ^= self.0 << 17;
        (self.0 >> 11) as usize % limit
    }

    fn shuffle<T>(&mut self, list: &mut [T]) {
        for last in (1..list.len()).rev() {
            list.swap(last, self.below(last + 1));
        }
    }
}

#[derive(Clone, Copy)]
struct Job {
    thread: u8,
    action: u8,
    station: u8,
    depth: u16,
}

impl Job {
    fn random<D: Depths>(station: u8, dice: &mut Dice) -> Self {
        let action = [INSERT, REMOVE][dice.below(2)];
        Job {
            thread: dice.below(4) as u8,
            action,
            station,
            depth: depth::<D>(action, dice),
        }
    }
}

fn depth<D: Depths>(action: u8, dice: &mut Dice) -> u16 {
    if D::KEPT && action == INSERT {
        dice.below(usize::from(DEEPEST) + 1) as u16
    } else {
        0
    }
}

/// Sees that a job alone meets no base that waits for help, loses no swap and is not refused.
struct Undisturbed;

impl Observer for Undisturbed {
    fn step(&mut self, _: u8, next: u8) {
        assert!(next < 15, "a job alone came to place {next}");
    }
    fn check(&mut self, _: u8, _: u8, case: impl FnOnce() -> usize) {
        assert_eq!(case(), 0, "a base waits for help");
    }
    fn answer(&mut self, _: u8, _: u8, _: u8) {}
    fn refusal(&mut self, number: u8, _: u8) {
        panic!("a job alone was refused with {number}");
    }
}

/// The start, then steps of that thread only, to its row: the answer and the number of steps.
fn alone<D: Depths>(bench: &mut Bench<D>, job: Job) -> (u8, usize) {
    let first = 16 * job.thread + job.action;
    let started = bench.record_observed(first, job.station, job.depth, &mut Undisturbed);
    assert_eq!(started, Ok(None));
    for steps in 1..=68 {
        if let Some(row) = bench.record_observed(16 * job.thread, 0, 0, &mut Undisturbed).unwrap() {
            assert_eq!(row[..3], [job.thread, job.action, job.station]);
            return (row[3], steps);
        }
    }
    panic!("a job alone has no row after 68 steps");
}

type Records = Vec<(u8, u8, u16)>;

fn replayed<D: Depths>(records: &Records) -> Bench<D> {
    let mut bench = Bench::new();
    for &(first, second, extra) in records {
        bench.record(first, second, extra).expect("a record that was carried out before");
    }
    bench
}

/// Random turns of four threads, then each thread's steps until all are idle; none if numbers run out on the way.
fn idle_state<D: Depths>(dice: &mut Dice) -> Option<Records> {
    let (mut bench, mut records) = (Bench::<D>::new(), Records::new());
    let mut carry_out = |bench: &mut Bench<D>, record: (u8, u8, u16)| {
        records.push(record);
        bench.record(record.0, record.1, record.2).is_ok()
    };
    let stations = [8, 24, 64][dice.below(3)];
    for _ in 0..dice.below(500) {
        let thread = dice.below(4) as u8;
        let record = if bench.place(usize::from(thread)) == 0 {
            let action = [LOOKUP, INSERT, INSERT, REMOVE, SPLIT, SPLIT, JOIN, JOIN][dice.below(8)];
            (16 * thread + action, dice.below(stations) as u8, depth::<D>(action, dice))
        } else {
            (16 * thread, 0, 0)
        };
        if !carry_out(&mut bench, record) {
            return None;
        }
    }
    for thread in 0..4 {
        while bench.place(usize::from(thread)) != 0 {
            if !carry_out(&mut bench, (16 * thread, 0, 0)) {
                return None;
            }
        }
    }
    Some(records)
}

/// The answers by station, what the tree holds with its depths, and the numbers used; and the most steps of a job.
type Ending = ([Option<u8>; 64], (u64, [u16; 64]), usize);

fn ending<D: Depths>(state: &Records, jobs: &[Job]) -> (Ending, usize) {
    let (mut bench, mut answers, mut most) = (replayed::<D>(state), [None; 64], 0);
    for &job in jobs {
        let (answer, steps) = alone(&mut bench, job);
        answers[usize::from(job.station)] = Some(answer);
        most = most.max(steps);
    }
    assert!((0..4).all(|thread| bench.place(thread) == 0));
    ((answers, bench.held(), bench.used()), most)
}

fn any_order<D: Depths>(seed: u64) {
    let mut dice = Dice(seed);
    let (mut lists, mut full, mut deepest) = (0, 0, 0);
    while lists < 1500 {
        let Some(mut state) = idle_state::<D>(&mut dice) else { continue };
        let mut stations: Vec<u8> = (0..64).collect();
        dice.shuffle(&mut stations);
        let count = (2 + dice.below(9)).min(CAPACITY - replayed::<D>(&state).used());
        let mut jobs: Vec<Job> = stations[..count].iter().map(|&s| Job::random::<D>(s, &mut dice)).collect();
        // Some lists take the last number: other jobs come before them.
        if dice.below(4) == 0 {
            let mut bench = replayed::<D>(&state);
            while bench.used() + count < CAPACITY {
                let job = Job::random::<D>(dice.below(64) as u8, &mut dice);
                let (_, steps) = alone(&mut bench, job);
                state.push((16 * job.thread + job.action, job.station, job.depth));
                state.extend(vec![(16 * job.thread, 0, 0); steps]);
            }
        }
        let (first, most) = ending::<D>(&state, &jobs);
        for _ in 0..3 {
            dice.shuffle(&mut jobs);
            assert_eq!(ending::<D>(&state, &jobs).0, first);
        }
        lists += 1;
        full += usize::from(first.2 == CAPACITY);
        deepest = deepest.max(most);
    }
    assert!(full > 100, "few lists took the last number: {full}");
    assert!(deepest > 7, "no tree was deep: {deepest} steps");
}

#[test]
fn jobs_on_different_stations_in_any_order() {
    any_order::<NoDepths>(1);
    any_order::<Rows>(2);
}

fn job(thread: u8, action: u8, station: u8, depth: u16) -> Job {
    Job {
        thread,
        action,
        station,
        depth,
    }
}

#[test]
fn the_order_matters_on_one_station() {
    let (put, take) = (job(0, INSERT, 9, 640), job(1, REMOVE, 9, 0));
    let ((_, held, _), _) = ending::<Rows>(&vec![], &[put, take]);
    let ((_, other, _), _) = ending::<Rows>(&vec![], &[take, put]);
    assert_eq!((held.0, other.0, other.1[9]), (0, 1 << 9, 640));
    let again = job(1, INSERT, 9, 7);
    let ((_, held, _), _) = ending::<Rows>(&vec![], &[put, again]);
    let ((_, other, _), _) = ending::<Rows>(&vec![], &[again, put]);
    assert_eq!((held.1[9], other.1[9]), (7, 640));
}

/// The deepest tree has 63 routes in a chain, and then two numbers are left.
#[test]
fn the_longest_job_takes_68_steps() {
    let (mut bench, mut state) = (Bench::<Rows>::new(), Records::new());
    for station in 0..64 {
        for action in [INSERT, SPLIT] {
            if (station, action) != (0, SPLIT) {
                let (_, steps) = alone(&mut bench, job(0, action, station, 0));
                state.push((action, station, 0));
                state.extend(vec![(0, 0, 0); steps]);
            }
        }
    }
    assert_eq!(bench.used(), 254);
    let jobs = [job(2, INSERT, 63, 640), job(1, REMOVE, 62, 0)];
    let (first, most) = ending::<Rows>(&state, &jobs);
    assert_eq!((first.0[63], first.0[62], first.2, most), (Some(0), Some(1), CAPACITY, 68));
    assert_eq!(ending::<Rows>(&state, &[jobs[1], jobs[0]]).0, first);
}

#[test]
fn numbers_must_suffice_for_both() {
    let mut bench = Bench::<NoDepths>::new();
    while bench.used() + 1 < CAPACITY {
        alone(&mut bench, job(0, INSERT, 3, 0));
    }
    assert_eq!(alone(&mut bench, job(1, INSERT, 9, 0)), (1, 3));
    for record in [(34, 20), (32, 0), (32, 0)] {
        assert_eq!(bench.record(record.0, record.1, 0), Ok(None));
    }
    assert_eq!(bench.record(32, 0, 0), Err(13));
}
