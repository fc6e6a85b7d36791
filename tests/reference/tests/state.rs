//! State: bytes worked out by hand from the paper's places and docs/STATE.md; and random schedules, in which each state
//! tells the same tree as List, goes by the places, and leaves out only notes that no later step reads.

use reference::{list, run, state, AnyRows, Bench, Depths, NoDepths, StateReport};
use reference::{FRAME, INSERT, JOIN, LOOKUP, NODE, RANGE, REMOVE, SPLIT, STATE_HEAD, STATE_ROOM, STORE, THREAD, THREAD_HEAD};

const MARK: u8 = 0xAA;

/// A schedule under construction.
#[derive(Clone)]
struct Plan(u8, Vec<u8>);

impl Plan {
    fn record(mut self, first: u8, second: u8, extra: u16) -> Self {
        self.1.extend([first, second]);
        if self.0 > 1 {
            self.1.extend(extra.to_be_bytes());
        }
        self
    }

    fn steps(self, thread: u8, count: usize) -> Self {
        (0..count).fold(self, |plan, _| plan.record(16 * thread, 0, 0))
    }

    fn alone(self, thread: u8, action: u8, station: u8, extra: u16, steps: usize) -> Self {
        self.record(16 * thread + action, station, extra).steps(thread, steps)
    }

    /// 01's printed run, with depths from version 2 on.
    fn printed(version: u8) -> Self {
        Plan(version, Vec::new())
            .alone(0, INSERT, 3, 640, 3)
            .alone(0, INSERT, 9, 9999, 3)
            .alone(0, SPLIT, 3, 0, 3)
    }

    fn count(&self) -> usize {
        self.1.len() / if self.0 == 1 { 2 } else { 4 }
    }

    fn file(&self) -> Vec<u8> {
        let count = u16::try_from(self.count()).expect("a count of two bytes");
        [&[self.0], &count.to_be_bytes()[..], &self.1].concat()
    }

    /// The state after all records, none of which is refused.
    fn state(&self) -> Vec<u8> {
        let (report, bytes) = state_of(&self.file(), u64::MAX);
        assert_eq!((report.refusal, report.records), (0, self.count() as u64));
        bytes
    }
}

/// The report and the bytes written; the rest of the buffer is untouched.
fn state_of(file: &[u8], count: u64) -> (StateReport, Vec<u8>) {
    let mut buffer = vec![MARK; STATE_ROOM + 9];
    let report = state(file, count, &mut buffer);
    let (bytes, rest) = buffer.split_at(report.length as usize);
    assert!(rest.iter().all(|&byte| byte == MARK), "bytes after the state were touched");
    (report, bytes.to_vec())
}

fn thread(state: &[u8], number: usize) -> &[u8] {
    &state[STATE_HEAD + THREAD * number..][..THREAD]
}

fn frame(state: &[u8], thread_number: usize, number: usize) -> &[u8] {
    &thread(state, thread_number)[THREAD_HEAD + FRAME * number..][..FRAME]
}

fn node(state: &[u8], number: usize) -> &[u8] {
    &state[STATE_HEAD + 4 * THREAD + NODE * number..][..NODE]
}

fn used(state: &[u8]) -> usize {
    usize::from(u16::from_be_bytes([state[6], state[7]]))
}

fn store(state: &[u8], number: usize) -> &[u8] {
    &state[STATE_HEAD + 4 * THREAD + NODE * used(state) + STORE * number..][..STORE]
}

fn word(bytes: &[u8]) -> u64 {
    u64::from_be_bytes(bytes[..8].try_into().unwrap())
}

fn link(bytes: &[u8], at: usize) -> Option<u8> {
    match bytes[at..at + 2] {
        [1, number] => Some(number),
        [0, 0] => None,
        _ => panic!("no link at {at}"),
    }
}

/// The bytes that a part begins with; the rest of it is 0.
fn begins(part: &[u8], bytes: &[u8]) {
    let (first, rest) = part.split_at(bytes.len());
    assert_eq!(first, bytes);
    assert!(rest.iter().all(|&byte| byte == 0), "a byte over {} is not 0", bytes.len());
}

const ALL: [u8; 9] = [1, 255, 255, 255, 255, 255, 255, 255, 255];
const UNDER_9: [u8; 9] = [1, 0, 0, 0, 0, 0, 0, 1, 255];
const FROM_9: [u8; 9] = [1, 255, 255, 255, 255, 255, 255, 254, 0];
const GONE: [u8; 9] = [0; 9];

#[test]
fn an_insert_alone() {
    let plan = Plan(1, vec![2, 9, 0, 0, 0, 0, 0, 0]);
    let at = |count| state_of(&plan.file(), count);
    let (report, start) = at(0);
    assert_eq!(report, StateReport { refusal: 0, records: 0, length: (16 + 4 * 816 + 176) as u64 });
    begins(&start[..STATE_HEAD + 4 * THREAD], &[1, 1, 0, 0, 0, 0, 0, 1]);
    begins(node(&start, 0), &[&[0][..], &ALL].concat());
    begins(thread(&at(1).1, 0), &[1, 2, 9]);
    begins(thread(&at(2).1, 0), &[3, 2, 9, 0, 0, 0, 0, 0, 0, 0, 1, 0]);
    begins(thread(&at(3).1, 0), &[10, 2, 9, 0, 0, 0, 0, 0, 0, 0, 1, 0]);
    for count in [4, 5, 4096, u64::MAX] {
        let (report, end) = at(count);
        assert_eq!((report.records, end.len()), (4, 16 + 4 * 816 + 2 * 176));
        begins(&end[..STATE_HEAD + 4 * THREAD], &[1, 1, 0, 4, 0, 1, 0, 2]);
        begins(node(&end, 0), &[]);
        begins(node(&end, 1), &[&[0][..], &ALL, &[0; 8], &[0, 0, 0, 0, 0, 0, 2, 0]].concat());
    }
}

/// 01's join after the printed run: its notes at every place, and the nodes that it makes.
#[test]
fn a_join_step_by_step() {
    // place, side, own; route, base, parent, found, neighbour, main, grandparent, other
    let notes: [(u8, [u8; 2], [Option<u8>; 8]); 22] = {
        let (n, s) = (None, |x| Some(x));
        let part = |place, side, own, notes| (place, [side, own], notes);
        [
            part(1, 0, 0, [n; 8]),
            part(2, 0, 0, [s(3), n, n, n, n, n, n, n]),
            part(3, 0, 0, [n, s(4), n, n, n, n, n, n]),
            part(20, 0, 0, [n, s(4), s(3), n, n, n, n, n]),
            part(22, 1, 0, [n, s(4), s(3), n, n, n, n, n]),
            part(24, 1, 0, [n, s(4), s(3), s(5), n, n, n, n]),
            part(25, 1, 0, [n, s(4), s(3), s(5), n, n, n, n]),
            part(26, 1, 1, [n, n, s(3), s(5), n, s(6), n, n]),
            part(28, 1, 1, [n, n, s(3), s(5), n, s(6), n, n]),
            part(29, 1, 1, [n, n, s(3), s(5), n, s(6), n, n]),
            part(30, 1, 1, [n, n, s(3), n, s(7), s(6), n, n]),
            part(31, 1, 1, [n, n, s(3), n, s(7), s(6), n, n]),
            part(34, 1, 1, [n, n, s(3), n, s(7), s(6), n, n]),
            part(35, 0, 1, [n, n, s(3), n, s(7), s(6), n, s(7)]),
            part(40, 0, 1, [n, n, n, n, n, s(6), n, n]),
            part(41, 0, 1, [n, n, n, n, n, s(6), n, n]),
            part(43, 0, 1, [n, n, n, n, n, s(6), n, n]),
            part(44, 0, 1, [n, n, n, n, n, s(6), n, n]),
            part(45, 0, 1, [n, n, n, n, n, s(6), n, n]),
            part(46, 0, 1, [n, n, n, n, n, s(6), n, n]),
            part(51, 0, 1, [n, n, n, n, n, s(6), n, n]),
            part(0, 0, 0, [n; 8]),
        ]
    };
    for (step, (place, [side, own], links)) in notes.into_iter().enumerate() {
        let state = Plan::printed(1).alone(0, JOIN, 3, 0, step).state();
        let me = thread(&state, 0);
        let (action, station) = if place == 0 { (0, 0) } else { (JOIN, 3) };
        assert_eq!(me[..8], [place, action, station, 0, 0, 0, side, own], "after {step} steps");
        let got: [Option<u8>; 8] = std::array::from_fn(|note| link(me, 8 + 2 * note));
        assert_eq!(got, links, "at {place}");
        assert!(me[24..].iter().all(|&byte| byte == 0));
        assert_eq!(used(&state), [6, 7, 8, 9][usize::from(step > 6) + usize::from(step > 9) + usize::from(step > 13)]);
        let marked = if step > 10 { [1, 6] } else { [0, 0] };
        let kids = match step {
            0..=6 => [4, 5],
            7..=9 => [6, 5],
            10..=17 => [6, 7],
            _ => [6, 8],
        };
        let route = [&if step < 20 { ALL } else { GONE }[..], &[9, kids[0], kids[1], u8::from(step < 19)], &marked].concat();
        begins(node(&state, 3), &[&[1], &route[..]].concat());
        if step > 6 {
            let main = node(&state, 6);
            let agreed = [1, 8, 1, 7, 0, 0, 1, 7];
            let stage = [1, 2, 4][usize::from(step > 13) + usize::from(step > 20)];
            let head = [&[2][..], &if step < 20 { UNDER_9 } else { GONE }, &[0; 6], &[1, 3, 0, 0, 0, 0, 0, 0, 0, 8]].concat();
            begins(main, &[&head[..], &[stage, 0], &if stage == 1 { [0; 8] } else { agreed }].concat());
        }
        if step > 13 {
            let range = match step {
                0..=17 => GONE,
                18..=19 => FROM_9,
                _ => ALL,
            };
            let union = [&[3][..], &range, &[0; 8], &[0, 0, 0, 0, 0, 0, 2, 8], &[0; 10], &[1, 6]].concat();
            begins(node(&state, 8), &union);
        }
    }
}

/// 01's killed join: t1 stands before 16, then the main is aborted.
#[test]
fn a_join_is_killed() {
    let plan = Plan::printed(1).alone(0, JOIN, 3, 0, 7).alone(1, INSERT, 4, 0, 3);
    let before = plan.state();
    begins(thread(&before, 1), &[16, 2, 4, 0, 0, 0, 0, 0, 0, 0, 0, 0, 0, 0, 0, 0, 0, 0, 1, 6]);
    assert_eq!(node(&before, 6)[26], 1);
    let after = plan.steps(1, 1).state();
    begins(thread(&after, 1), &[1, 2, 4]);
    assert_eq!(node(&after, 6)[26..36], [3, 0, 0, 0, 0, 0, 0, 0, 0, 0]);
    assert_eq!(thread(&after, 0), thread(&before, 0));
}

/// A grandparent: the printed run, 20 put in and split, joined under route 9.
#[test]
fn a_join_below_a_grandparent() {
    let plan = Plan::printed(1).alone(0, INSERT, 20, 0, 6).alone(0, SPLIT, 20, 0, 6);
    let at = |steps| plan.clone().alone(2, JOIN, 9, 0, steps).state();
    // 1, 2, 2, 3, 20, 22, 24, 25, 26, 28, 29, 30, 31, 32, 33, 34, 35
    let walking = at(13);
    begins(thread(&walking, 2), &[32, 5, 9, 0, 0, 0, 1, 1, 1, 3, 0, 0, 1, 7, 0, 0, 1, 11, 1, 10]);
    begins(thread(&at(14), 2), &[33, 5, 9, 0, 0, 0, 1, 1, 0, 0, 0, 0, 1, 7, 0, 0, 1, 11, 1, 10, 1, 3]);
    begins(thread(&at(16), 2), &[35, 5, 9, 0, 0, 0, 0, 1, 0, 0, 0, 0, 1, 7, 0, 0, 1, 11, 1, 10, 1, 3, 1, 11]);
    let agreed = at(17);
    begins(thread(&agreed, 2), &[40, 5, 9, 0, 0, 0, 0, 1, 0, 0, 0, 0, 0, 0, 0, 0, 0, 0, 1, 10]);
    assert_eq!(node(&agreed, 10)[26..36], [2, 0, 1, 12, 1, 11, 1, 3, 1, 11]);
    assert_eq!(node(&agreed, 3)[10..16], [9, 4, 7, 1, 1, 10]);
    assert_eq!(node(&agreed, 12)[16..18], [1, 3]);
}

/// Depths, frames and stores of version 2.
#[test]
fn a_query_and_its_helper() {
    let plan = Plan::printed(2).alone(1, RANGE, 0, 2, 5).alone(2, INSERT, 4, 77, 3);
    let state = plan.state();
    assert_eq!(state[..16], [1, 2, 0, 22, 0, 3, 0, 7, 1, 0, 0, 0, 0, 0, 0, 0]);
    begins(&thread(&state, 1)[..THREAD_HEAD], &[&[81, 6, 0, 0, 2][..], &[0; 19], &[1]].concat());
    begins(frame(&state, 1, 0), &[&[0, 2, 1, 0][..], &[0; 6], &[1], &[0; 5], &[0, 0, 0, 0, 0, 0, 0, 8]].concat());
    begins(&thread(&state, 2)[..THREAD_HEAD], &[&[60, 2, 4, 0, 77][..], &[0; 19], &[1]].concat());
    begins(frame(&state, 2, 0), &[0, 2, 1, 0]);
    begins(store(&state, 0), &[]);
    let base = node(&state, 6);
    assert_eq!(base[..10], [&[4], &UNDER_9[..]].concat());
    assert_eq!(base[16..26], [1, 3, 0, 0, 0, 0, 0, 0, 0, 8]);
    assert_eq!(base[26..48], [&[0; 12][..], &[0, 2, 1, 0], &[0; 6]].concat());
    begins(&base[48..], &[0, 0, 0, 0, 0, 0, 2, 128]);
    let set = plan.steps(1, 1).state();
    begins(&thread(&set, 1)[..THREAD_HEAD], &[&[82, 6, 0, 0, 2][..], &[0; 19], &[1]].concat());
    begins(frame(&set, 1, 0), &[0, 2, 1, 0]);
    assert_eq!(store(&set, 0), [1, 0, 0, 0, 0, 0, 0, 0, 8]);
    // a query that goes on: at 70, with base 6 popped; at 76, with base 5 in hand; both may go back to 6 and 3
    let long = Plan::printed(2).alone(1, RANGE, 0, 63, 5);
    let piles = |stack: &[u8]| {
        let mut bytes = vec![0; 172];
        bytes[..stack.len()].copy_from_slice(stack);
        bytes[86..88].copy_from_slice(&[6, 3]);
        bytes
    };
    let head = |hand: &[u8], stack: u8| [&[0, 63, 1, 0][..], hand, &[0, 0, 1, stack, 2], &[0; 3], &[0, 0, 0, 0, 0, 0, 0, 8]].concat();
    assert_eq!(frame(&long.state(), 1, 0), [head(&[0, 0, 1, 6], 1), piles(&[3])].concat());
    assert_eq!(frame(&long.steps(1, 3).state(), 1, 0), [head(&[1, 5, 0, 0], 2), piles(&[5, 3])].concat());
}

/// Version 3: a lookup below eight routes, before 4, before 5, and done.
#[test]
fn a_search_that_is_counted() {
    let mut plan = Plan(3, Vec::new()).alone(0, INSERT, 0, 0, 3);
    for station in 1..=8u8 {
        let steps = if station == 1 { 3 } else { 4 + usize::from(station) };
        plan = plan.alone(0, INSERT, station, 0, steps).alone(0, SPLIT, station, 0, steps);
    }
    let at = |steps| plan.clone().alone(1, LOOKUP, 8, 0, steps).state();
    for (steps, count, notes) in [
        (8, 0, &[2, 1, 8, 0, 0, 7, 0, 0, 1, 31][..]),
        (9, 0, &[4, 1, 8, 0, 0, 0, 0, 0, 1, 33]),
        (10, 1, &[5, 1, 8, 0, 0, 0, 0, 0, 0, 0, 1, 33]),
        (11, 0, &[]),
    ] {
        let state = at(steps);
        assert_eq!(state[8..11], [0, 1, count]);
        begins(thread(&state, 1), notes);
    }
}

#[test]
fn refusals() {
    let refusal = |file: &[u8], room: usize| {
        let mut buffer = vec![MARK; room];
        let report = state(file, 7, &mut buffer);
        assert_eq!((report.records, report.length), (0, 0));
        assert!(buffer.iter().all(|&byte| byte == MARK), "the buffer was touched");
        report.refusal
    };
    assert_eq!(STATE_ROOM, 48_912);
    for room in [0, STATE_ROOM] {
        assert_eq!(refusal(&[1, 0], room), 1);
        assert_eq!(refusal(&[4, 0, 0], room), 2);
        assert_eq!(refusal(&[1, 0x10, 1], room), 3);
        assert_eq!(refusal(&[3, 0, 1, 2, 9], room), 4);
    }
    assert_eq!(refusal(&[1, 0, 0], STATE_ROOM - 1), 25);
    assert_eq!(refusal(&[2, 0, 0], 0), 25);
    // a record refused among the first k, and one after them
    let file = [1, 0, 3, 0x12, 9, 0x12, 9, 0x10, 0];
    let (report, bytes) = state_of(&file, 2);
    assert_eq!((report.refusal, report.records, &bytes[..8]), (11, 1, &[1, 1, 0, 1, 11, 0, 0, 1][..]));
    assert_eq!((state_of(&file, 3).1, state_of(&file, 99).1), (bytes.clone(), bytes));
    let (report, bytes) = state_of(&file, 1);
    assert_eq!((report.refusal, report.records, &bytes[..8]), (0, 1, &[1, 1, 0, 1, 0, 0, 0, 1][..]));
}

/// Random numbers, the same in every run of the tests.
struct Dice(u64);

impl Dice {
    fn below(&mut self, limit: usize) -> usize {
        self.0 ^= self.0 << 13;
        self.0 ^= self.0 >> 7;
        self.0 ^= self.0 << 17;
        (self.0 >> 11) as usize % limit
    }
}

/// A random schedule of good records, as far as numbers and stores suffice; its stations are few, so that threads meet.
fn random(dice: &mut Dice, version: u8, length: usize) -> Plan {
    let mut bench = Bench::<AnyRows>::of(version);
    let mut plan = Plan(version, Vec::new());
    let (stations, burst) = ([3, 8, 20, 64][dice.below(4)], 1 + dice.below(9));
    let mut thread = 0;
    for _ in 0..length {
        if dice.below(burst) == 0 {
            thread = dice.below(4);
        }
        let number = 16 * thread as u8;
        let record = if bench.place(thread) == 0 {
            let action = [LOOKUP, INSERT, INSERT, REMOVE, SPLIT, SPLIT, JOIN, JOIN, RANGE][dice.below(if version == 1 { 8 } else { 9 })];
            let station = dice.below(stations) as u8;
            let extra = match action {
                RANGE => usize::from(station) + dice.below(64 - usize::from(station)),
                INSERT if version > 1 => dice.below(10_000),
                _ => 0,
            };
            (number + action, station, extra as u16)
        } else {
            (number, 0, 0)
        };
        if bench.record(record.0, record.1, record.2).is_err() {
            break;
        }
        plan = plan.record(record.0, record.1, record.2);
    }
    plan
}

/// The listing as a state tells it.
fn listed(state: &[u8], id: usize, level: usize, text: &mut String, set: &mut [Option<u16>; 64]) {
    let bytes = node(state, id);
    let stations = |within: u64| (0..64).filter(move |station| within >> station & 1 != 0);
    if bytes[0] == 1 {
        assert_eq!(bytes[16..], [0; NODE - 16], "a route has no more");
        text.push_str(&format!("{level} route {}\n", bytes[10]));
        for kid in [bytes[11], bytes[12]] {
            listed(state, kid.into(), level + 1, text, set);
        }
        return;
    }
    assert_eq!(bytes[1], 1, "node {id} is reachable");
    let kind = ["normal", "", "main", "neighbour", "range"][usize::from(bytes[0])];
    let (range, container) = (word(&bytes[2..]), word(&bytes[18..]));
    text.push_str(&format!("{level} {kind}"));
    let depth = |station: usize| u16::from_be_bytes([bytes[48 + 2 * station], bytes[49 + 2 * station]]);
    for station in stations(container) {
        text.push_str(&said(state, station, depth(station)));
    }
    text.push_str(if container == 0 { " -\n" } else { "\n" });
    assert!(stations(!container).all(|station| depth(station) == 0), "a depth of no station");
    for station in stations(container & range) {
        assert_eq!(set[station].replace(depth(station)), None);
    }
}

fn said(state: &[u8], station: usize, depth: u16) -> String {
    if state[1] == 1 {
        assert_eq!(depth, 0);
        format!(" {station}")
    } else {
        format!(" {station}={depth}")
    }
}

/// The tree lines and the set line of a state are those that List writes.
fn tells_the_tree(file: &[u8], count: usize) {
    let (report, state) = state_of(file, count as u64);
    assert_eq!(report.records, count as u64);
    let (mut text, mut set) = (String::new(), [None; 64]);
    listed(&state, state[5].into(), 0, &mut text, &mut set);
    text.push_str("set");
    for (station, depth) in set.iter().enumerate().filter_map(|(station, depth)| depth.map(|depth| (station, depth))) {
        text.push_str(&said(&state, station, depth));
    }
    text.push_str(if set == [None; 64] { " -\n" } else { "\n" });
    let width = if file[0] == 1 { 2 } else { 4 };
    let part = [&[file[0]], &(count as u16).to_be_bytes()[..], &file[3..3 + width * count]].concat();
    let mut lines = [0; 8192];
    let length = list(&part, &mut lines).length as usize;
    assert_eq!(text.as_bytes(), &lines[..length]);
    let mut rows = vec![0; 7 * count];
    assert_eq!(run(&part, &mut rows).used, used(&state) as u64);
    // what is not reachable has no range, and no node has what its kind has not
    for id in 0..used(&state) {
        let bytes = node(&state, id);
        assert!(bytes[1] == 1 || bytes[2..10] == [0; 8]);
        let fields: &[std::ops::Range<usize>] = match bytes[0] {
            1 => &[16..NODE],
            0 => &[10..16, 26..48],
            2 => &[10..16, 36..48],
            3 => &[10..16, 26..36, 38..48],
            _ => &[10..16, 26..38, 42..48],
        };
        assert!(fields.iter().all(|part| bytes[part.clone()].iter().all(|&byte| byte == 0)), "node {id}");
        assert_eq!((27, bytes[27]), (27, 0));
    }
}

/// Two runs of the same records, one of which forgets at every moment what its state does not show: they stay the same.
fn forgets_well<D: Depths + Clone>(plan: &Plan, mut bench: Bench<D>, dice: &mut Dice) {
    let mut twin = bench.clone();
    let width = if plan.0 == 1 { 2 } else { 4 };
    let (mut bytes, mut other) = (vec![0; STATE_ROOM], vec![0; STATE_ROOM]);
    for (done, record) in plan.1.chunks(width).enumerate() {
        let extra = if width == 4 { u16::from_be_bytes([record[2], record[3]]) } else { 0 };
        twin.forget(dice.below(256) as u8);
        let rows = [&mut bench, &mut twin].map(|bench| bench.record(record[0], record[1], extra));
        assert_eq!(rows[0], rows[1], "record {done}");
        if let Ok(Some(row)) = rows[0] {
            assert_eq!((bench.depth(row), bench.found(row)), (twin.depth(row), twin.found(row)));
        }
        let lengths = [(&bench, &mut bytes), (&twin, &mut other)].map(|(bench, bytes)| bench.write(plan.0, 0, done as u16 + 1, bytes));
        assert_eq!(lengths[0], lengths[1]);
        assert!(bytes[..lengths[0]] == other[..lengths[0]], "the states differ after record {done}");
        if done % 16 == 15 {
            assert_eq!(state_of(&plan.file(), done as u64 + 1).1, bytes[..lengths[0]]);
        }
    }
}

#[test]
fn random_schedules() {
    let mut dice = Dice(11);
    let (mut places, mut kinds, mut frames) = ([0; 83], [0; 5], [0; 5]);
    for round in 0..300 {
        let version = [1, 2, 3][round % 3];
        let length = [40, 150, 500][dice.below(3)];
        let plan = random(&mut dice, version, length);
        let file = plan.file();
        for _ in 0..3 {
            tells_the_tree(&file, dice.below(plan.count() + 1));
        }
        match version {
            1 => forgets_well(&plan, Bench::<NoDepths>::new(), &mut dice),
            _ => forgets_well(&plan, Bench::<AnyRows>::of(version), &mut dice),
        }
        let state = state_of(&file, dice.below(plan.count() + 1) as u64).1;
        for number in 0..4 {
            places[usize::from(thread(&state, number)[0])] += 1;
            frames[usize::from(thread(&state, number)[24])] += 1;
        }
        for id in 0..used(&state) {
            kinds[usize::from(node(&state, id)[0])] += 1;
        }
    }
    assert!(places.iter().filter(|&&count| count > 0).count() > 45, "places {places:?}");
    assert!(kinds.iter().all(|&count| count > 0) && frames[..3].iter().all(|&count| count > 0), "{kinds:?} {frames:?}");
}
