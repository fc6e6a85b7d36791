//! State: the whole bench after the first records of a schedule, laid out in bytes as docs/STATE.md says.

use crate::bench::{AllWrite, Bench, Thread, Writers, JOIN, THREADS};
use crate::depths::Depths;
use crate::file::{carry_out, opened, One, Three, Two, Version};
use crate::node::{Id, Kind, Node, Stage, CAPACITY};
use crate::observe::Silent;
use crate::range::{Frame, Stack, FRAMES, STACK, STORES};
use crate::tree::stations;

/// The layout's number, and the bytes of its parts.
pub const LAYOUT: u8 = 1;
pub const STATE_HEAD: usize = 16;
pub const THREAD_HEAD: usize = 32;
pub const FRAME: usize = 24 + 2 * STACK;
pub const THREAD: usize = THREAD_HEAD + FRAMES * FRAME;
pub const NODE: usize = 48 + 2 * 64;
pub const STORE: usize = 9;
/// The most bytes of a state, and the least length of its buffer.
pub const STATE_ROOM: usize = STATE_HEAD + THREADS * THREAD + CAPACITY * NODE + STORES * STORE;

#[derive(Clone, Copy, Debug, Default, PartialEq, Eq)]
pub struct StateReport {
    pub refusal: u64,
    pub records: u64,
    pub length: u64,
}

/// The bench after the first `count` records, or after all where there are fewer.
pub fn state(schedule: &[u8], count: u64, buffer: &mut [u8]) -> StateReport {
    let number = match opened(schedule, AllWrite::VERSIONS) {
        Ok(_) if buffer.len() < STATE_ROOM => 25,
        Ok((1, records)) => return state_after::<One>(1, records, count, buffer),
        Ok((2, records)) => return state_after::<Two>(2, records, count, buffer),
        Ok((_, records)) => return state_after::<Three>(3, records, count, buffer),
        Err(number) => number,
    };
    StateReport {
        refusal: number.into(),
        ..StateReport::default()
    }
}

#[inline(never)]
fn state_after<V: Version>(version: u8, records: &[u8], count: u64, buffer: &mut [u8]) -> StateReport {
    let all = records.len() / V::RECORD;
    let count = usize::try_from(count).map_or(all, |count| count.min(all));
    let mut bench = Bench::new();
    let records = &records[..V::RECORD * count];
    let (refusal, done) = carry_out::<V, AllWrite, Silent>(&mut bench, records, &mut Silent, |_, _| {});
    StateReport {
        refusal: refusal.into(),
        records: done,
        length: bench.write(version, refusal, done as u16, buffer) as u64,
    }
}

/// A number or none: 1 and the number, or two zeros.
fn link(bytes: &mut [u8], at: usize, number: Option<u8>) {
    if let Some(number) = number {
        bytes[at] = 1;
        bytes[at + 1] = number;
    }
}

fn word(bytes: &mut [u8], at: usize, word: u64) {
    bytes[at..at + 8].copy_from_slice(&word.to_be_bytes());
}

/// Where a thread's notes lie in its record.
const ROUTE: usize = 8;
const BASE: usize = 10;
const PARENT: usize = 12;
const FOUND: usize = 14;
const NEIGHBOUR: usize = 16;
const MAIN: usize = 18;
const GRANDPARENT: usize = 20;
const OTHER: usize = 22;

/// The notes that a thread has at a place: those written on the way there that it may still read.
fn notes(place: u8) -> &'static [usize] {
    match place {
        2 | 4 => &[ROUTE],
        3 | 5 | 10..=13 | 15 => &[BASE],
        16 => &[MAIN],
        19..=22 => &[BASE, PARENT],
        23 => &[ROUTE, BASE, PARENT],
        24 | 25 => &[BASE, PARENT, FOUND],
        26..=29 => &[PARENT, FOUND, MAIN],
        30 | 31 => &[PARENT, NEIGHBOUR, MAIN],
        32 => &[ROUTE, PARENT, NEIGHBOUR, MAIN],
        33 | 34 => &[PARENT, NEIGHBOUR, MAIN, GRANDPARENT],
        35 => &[PARENT, NEIGHBOUR, MAIN, GRANDPARENT, OTHER],
        36 => &[PARENT, MAIN, GRANDPARENT],
        37 => &[PARENT, MAIN],
        38 | 40..=51 => &[MAIN],
        _ => &[],
    }
}

fn has_side(place: u8) -> bool {
    (22..=34).contains(&place)
}

/// Whether a frame on top of a thread at `place`, or one that waits, with place 0, has a base in hand, a stack and a
/// backup.
fn frame_notes(place: u8) -> (bool, bool, bool) {
    match place {
        60 | 81 | 82 => (false, false, false),
        61 => (false, true, false),
        62..=67 => (true, true, false),
        70..=73 => (false, true, true),
        74..=80 => (true, true, true),
        _ => (false, false, true),
    }
}

impl<D: Depths> Bench<D> {
    /// Writes the state and hands back its length.
    pub fn write(&self, version: u8, refusal: u8, done: u16, buffer: &mut [u8]) -> usize {
        let (used, shown) = (self.used(), self.shown());
        let nodes_at = STATE_HEAD + THREADS * THREAD;
        let stores_at = nodes_at + used * NODE;
        let length = stores_at + shown * STORE;
        let bytes = &mut buffer[..length];
        bytes.fill(0);
        bytes[0] = LAYOUT;
        bytes[1] = version;
        bytes[2..4].copy_from_slice(&done.to_be_bytes());
        bytes[4] = refusal;
        bytes[5] = self.tree.root;
        bytes[6..8].copy_from_slice(&(used as u16).to_be_bytes());
        bytes[8] = shown as u8;
        bytes[9] = self.tree.nodes.depths.stops().into();
        bytes[10] = self.tree.count;
        for thread in 0..THREADS {
            let from = STATE_HEAD + thread * THREAD;
            self.write_thread(thread, &mut bytes[from..from + THREAD]);
        }
        for (id, node) in bytes[nodes_at..stores_at].chunks_exact_mut(NODE).enumerate() {
            self.write_node(id as Id, node);
        }
        self.write_unions(&mut bytes[nodes_at..stores_at]);
        self.write_ranges(self.tree.root, u64::MAX, &mut bytes[nodes_at..stores_at]);
        for (store, bytes) in bytes[stores_at..].chunks_exact_mut(STORE).enumerate() {
            if let Some(result) = self.result(store as u8) {
                bytes[0] = 1;
                word(bytes, 1, result);
            }
        }
        length
    }

    fn write_thread(&self, number: usize, bytes: &mut [u8]) {
        let thread = &self.threads[number];
        if thread.place == 0 {
            return;
        }
        bytes[0] = thread.place;
        bytes[1] = thread.action;
        bytes[2] = thread.station;
        bytes[3..5].copy_from_slice(&D::number(thread.extra).to_be_bytes());
        self.write_notes(thread, bytes);
        let frames = self.frames(number);
        bytes[24] = frames.len() as u8;
        let places = std::iter::once(thread.place).chain(std::iter::repeat(0));
        for ((frame, place), bytes) in (frames.iter().rev().zip(places))
            .zip(bytes[THREAD_HEAD..].chunks_exact_mut(FRAME))
        {
            write_frame(frame, place, bytes);
        }
    }

    fn write_notes(&self, me: &Thread<D::Depth>, bytes: &mut [u8]) {
        for &note in notes(me.place) {
            let number = match note {
                ROUTE => Some(me.at),
                BASE => Some(me.base),
                PARENT => self.tree.nodes.base(me.base).parent,
                FOUND => Some(me.found),
                NEIGHBOUR => Some(me.neighbour),
                MAIN => Some(me.main),
                GRANDPARENT => me.grandparent,
                _ => Some(me.other),
            };
            link(bytes, note, number);
        }
        if me.place == 2 {
            bytes[5] = me.read;
        }
        if has_side(me.place) {
            bytes[6] = if me.is_left { 1 } else { 2 };
        }
        if (26..=51).contains(&me.place) {
            bytes[7] = (me.action == JOIN).into();
        }
    }

    /// Fills every note that the state does not show with junk: no later step may tell the difference. What another
    /// note shown is made of stays: the base, whose parent a join goes by, what 40 read, and what 5 reads again; and so does
    /// the empty backup of a frame that has not begun.
    pub fn forget(&mut self, junk: u8) {
        for (me, pile) in self.threads.iter_mut().zip(&mut self.piles) {
            if me.place == 0 {
                continue;
            }
            let shown = notes(me.place);
            let hidden = |note| !shown.contains(&note);
            if hidden(ROUTE) && me.place != 5 {
                me.at = junk;
            }
            if hidden(BASE) && !(26..=38).contains(&me.place) {
                me.base = junk;
            }
            if hidden(FOUND) {
                me.found = junk;
            }
            if hidden(NEIGHBOUR) {
                me.neighbour = junk;
            }
            if hidden(MAIN) {
                me.main = junk;
            }
            if hidden(GRANDPARENT) {
                me.grandparent = (junk % 2 == 0).then_some(junk);
            }
            if hidden(OTHER) {
                me.other = junk;
            }
            if !(41..=51).contains(&me.place) {
                me.union = junk;
            }
            if me.place != 2 {
                // where joins are not stopped it is 0 at every 2
                me.read = if self.tree.nodes.depths.stops() && me.place != 4 { junk } else { me.read };
            }
            if !has_side(me.place) {
                me.is_left = junk % 2 == 0;
            }
            for (index, frame) in pile.frames_mut().iter_mut().rev().enumerate() {
                forget_frame(frame, if index == 0 { me.place } else { 0 }, junk);
            }
        }
    }

    fn write_node(&self, id: Id, bytes: &mut [u8]) {
        let base = match self.node(id) {
            Node::Route(route) => {
                bytes[0] = 1;
                bytes[10..13].copy_from_slice(&[route.key, route.left, route.right]);
                bytes[13] = route.valid.into();
                link(bytes, 14, route.join);
                return;
            }
            Node::Base(base) => base,
        };
        link(bytes, 16, base.parent);
        word(bytes, 18, base.container);
        match base.kind {
            Kind::Normal => {}
            Kind::Main { stage, join } => {
                bytes[0] = 2;
                bytes[26] = match stage {
                    Stage::Preparing => 1,
                    Stage::Union(_) => 2,
                    Stage::Aborted => 3,
                    Stage::Done => 4,
                };
                if matches!(stage, Stage::Union(_) | Stage::Done) {
                    link(bytes, 30, Some(join.neighbour));
                    link(bytes, 32, join.grandparent);
                    link(bytes, 34, Some(join.other));
                }
            }
            Kind::Neighbour { main } => {
                bytes[0] = 3;
                link(bytes, 36, Some(main));
            }
            Kind::Range(asked) => {
                bytes[0] = 4;
                bytes[38] = asked.lower;
                bytes[39] = asked.upper;
                link(bytes, 40, Some(asked.store));
            }
        }
        if D::KEPT {
            for station in stations(base.container) {
                let at = 48 + 2 * usize::from(station);
                let depth = self.tree.nodes.depths.get(id, station);
                bytes[at..at + 2].copy_from_slice(&depth.to_be_bytes());
            }
        }
    }

    /// A main whose stage is or was a node number names two nodes as theirs: its neighbour, and the union node.
    fn write_unions(&self, nodes: &mut [u8]) {
        for id in 0..self.used() {
            let Node::Base(base) = self.node(id as Id) else {
                continue;
            };
            let Kind::Neighbour { main } = base.kind else {
                continue;
            };
            let (stage, join) = self.tree.nodes.main(main);
            if matches!(stage, Stage::Union(_) | Stage::Done) && usize::from(join.neighbour) != id {
                link(&mut nodes[usize::from(main) * NODE..], 28, Some(id as Id));
            }
        }
    }

    /// The nodes that are reachable, and their ranges.
    fn write_ranges(&self, id: Id, range: u64, nodes: &mut [u8]) {
        let bytes = &mut nodes[usize::from(id) * NODE..];
        bytes[1] = 1;
        word(bytes, 2, range);
        if let Node::Route(route) = self.node(id) {
            let below = (1 << route.key) - 1;
            self.write_ranges(route.left, range & below, nodes);
            self.write_ranges(route.right, range & !below, nodes);
        }
    }
}

fn write_frame(frame: &Frame, place: u8, bytes: &mut [u8]) {
    bytes[0] = frame.lower;
    bytes[1] = frame.upper;
    link(bytes, 2, frame.store);
    let (hand, stack, backup) = frame_notes(place);
    if hand {
        link(bytes, 4, Some(frame.base));
    }
    if place == 70 {
        link(bytes, 6, Some(frame.popped));
    }
    if place == 72 {
        link(bytes, 8, Some(frame.key));
    }
    if place != 82 {
        bytes[10] = frame.begun.into();
        word(bytes, 16, frame.done);
    }
    let piles = [(stack, 11, 24, &frame.stack), (backup, 12, 24 + STACK, &frame.backup)];
    for (shown, count, at, pile) in piles {
        if shown {
            let entries = pile.entries();
            bytes[count] = entries.len() as u8;
            for (byte, entry) in bytes[at..].iter_mut().zip(entries.iter().rev()) {
                *byte = *entry;
            }
        }
    }
}

fn forget_frame(frame: &mut Frame, place: u8, junk: u8) {
    let (hand, stack, backup) = frame_notes(place);
    if !hand {
        frame.base = junk;
    }
    if place != 70 {
        frame.popped = junk;
    }
    if place != 72 {
        frame.key = junk;
    }
    if place == 82 {
        frame.begun = junk % 2 == 0;
        frame.done = junk.into();
    }
    if !stack {
        frame.stack = Stack::junk(junk);
    }
    if !backup && frame.begun {
        frame.backup = Stack::junk(junk);
    }
}
