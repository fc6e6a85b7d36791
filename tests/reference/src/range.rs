//! Range queries, places 60 to 82: the frames of a thread, and what a step does in the top one.

use crate::bench::{Answer, Thread, RANGE};
use crate::depths::Depths;
use crate::node::{Asked, Base, Check, Id, Kind, CAPACITY};
use crate::step::Next::{self, Back, Finish, Full, Go, NoStore};
use crate::step::Swap;
use crate::tree::Tree;

/// A store's number.
pub type StoreId = u8;

/// How many stores there are.
pub const STORES: usize = 64;

/// The stores shown so far, with their results: a bit of `set` says whether there is one.
#[derive(Clone)]
pub struct Stores {
    shown: usize,
    set: u64,
    results: [u64; STORES],
}

impl Stores {
    pub fn new() -> Self {
        Stores {
            shown: 0,
            set: 0,
            results: [0; STORES],
        }
    }

    pub fn shown(&self) -> usize {
        self.shown
    }

    #[inline]
    pub fn result(&self, store: StoreId) -> Option<u64> {
        (self.set >> store & 1 != 0).then(|| self.results[usize::from(store)])
    }

    /// Swaps a result from unset to this one.
    #[inline]
    fn fill(&mut self, store: StoreId, result: u64) {
        if self.result(store).is_none() {
            self.set |= 1 << store;
            self.results[usize::from(store)] = result;
        }
    }
}

/// The most frames that a thread has at once.
pub const FRAMES: usize = 4;

/// The most entries of a stack: routes, and a base on top.
pub const STACK: usize = 86;

/// Node numbers, from the root down.
#[derive(Clone, Copy)]
pub struct Stack {
    length: u8,
    entries: [Id; STACK],
}

impl Stack {
    const EMPTY: Stack = Stack {
        length: 0,
        entries: [0; STACK],
    };

    /// One that nobody should look at.
    pub(crate) fn junk(byte: u8) -> Self {
        Stack {
            length: byte % STACK as u8,
            entries: [byte; STACK],
        }
    }

    pub fn entries(&self) -> &[Id] {
        &self.entries[..usize::from(self.length)]
    }

    #[inline]
    fn top(&self) -> Id {
        self.entries[usize::from(self.length) - 1]
    }

    #[inline]
    fn push(&mut self, id: Id) {
        self.entries[usize::from(self.length)] = id;
        self.length += 1;
    }

    #[inline]
    fn pop(&mut self) -> Id {
        let top = self.top();
        self.length -= 1;
        top
    }

    #[inline]
    fn is_empty(&self) -> bool {
        self.length == 0
    }
}

/// One run of the article's `all_in_range`.
#[derive(Clone)]
pub struct Frame {
    pub lower: u8,
    pub upper: u8,
    /// None while a query has not shown its store yet.
    pub store: Option<StoreId>,
    pub stack: Stack,
    pub backup: Stack,
    /// The base in hand.
    pub base: Id,
    pub popped: Id,
    /// The key noted at 70.
    pub key: u8,
    /// The stations done, and whether a base is in them.
    pub done: u64,
    pub begun: bool,
}

impl Frame {
    /// Of a query that starts.
    fn asking(lower: u8, upper: u8) -> Self {
        Frame {
            lower,
            upper,
            store: None,
            stack: Stack::EMPTY,
            backup: Stack::EMPTY,
            base: 0,
            popped: 0,
            key: 0,
            done: 0,
            begun: false,
        }
    }

    fn asked(&self) -> Asked {
        Asked {
            lower: self.lower,
            upper: self.upper,
            store: self.store.expect("a frame past 67 has a store"),
        }
    }

    /// Takes the base in hand off the stack: the next place.
    fn next(&mut self) -> u8 {
        self.popped = self.stack.pop();
        if self.stack.is_empty() {
            81
        } else {
            70
        }
    }

    /// The base in hand, which has this container, is done: the next place.
    fn add(&mut self, container: u64) -> u8 {
        self.done |= container;
        self.begun = true;
        self.backup = self.stack;
        if container >> self.upper != 0 {
            return 81;
        }
        self.next()
    }

    /// A new base stands where the base in hand stood.
    fn replace(&mut self, new: Id) {
        self.stack.pop();
        self.stack.push(new);
        self.base = new;
    }
}

/// The frames of a thread, the last one on top, and the set that its last query found.
#[derive(Clone)]
pub struct Pile {
    frames: Vec<Frame>,
    pub found: u64,
}

impl Pile {
    pub const fn new() -> Self {
        Pile {
            frames: Vec::new(),
            found: 0,
        }
    }

    pub fn frames(&self) -> &[Frame] {
        &self.frames
    }

    pub(crate) fn frames_mut(&mut self) -> &mut [Frame] {
        &mut self.frames
    }

    fn enter(&mut self, frame: Frame) -> u8 {
        assert!(self.frames.len() < FRAMES, "a thread needs a frame more");
        self.frames.push(frame);
        60
    }

    /// The first frame of a query that starts: the next place.
    pub fn ask(&mut self, lower: u8, upper: u8) -> u8 {
        self.enter(Frame::asking(lower, upper))
    }

    /// A frame for the query of a range base that is in the way: the next place.
    #[cold]
    pub fn help(&mut self, asked: Asked) -> u8 {
        self.enter(Frame {
            store: Some(asked.store),
            ..Frame::asking(asked.lower, asked.upper)
        })
    }

    /// The end of helping: the next place.
    #[inline]
    pub fn back(&mut self) -> u8 {
        match self.frames.last_mut() {
            None => 1,
            Some(frame) if !frame.begun => 60,
            Some(frame) => {
                frame.stack = frame.backup;
                frame.next()
            }
        }
    }
}

/// The stations from `lower` to `upper`, both inside.
fn between(lower: u8, upper: u8) -> u64 {
    u64::MAX >> (63 - upper) & u64::MAX << lower
}

impl<D: Depths> Tree<D> {
    /// Places 60 to 82, in the top frame.
    #[inline(never)]
    pub fn range(&mut self, me: &mut Thread<D::Depth>, pile: &mut Pile) -> Next {
        let frame = pile.frames.last_mut().expect("a frame from 60 on");
        match me.place {
            60 => {
                frame.stack.length = 0;
                self.first(frame, self.root)
            }
            61 => {
                let route = self.nodes.route(frame.stack.top());
                self.first(frame, route.child(frame.lower))
            }
            62 => match self.nodes.check(frame.base) {
                Check::Replaceable => Go(64),
                Check::Unset if self.nodes.asked(frame.base).upper >= frame.upper => {
                    let asked = self.nodes.asked(frame.base);
                    frame.lower = asked.lower;
                    frame.upper = asked.upper;
                    frame.store = Some(asked.store);
                    Go(60)
                }
                _ => {
                    me.base = frame.base;
                    Go(15)
                }
            },
            64..=67 => match self.swap_base(me.place - 64, frame.base, |tree| tree.open(frame)) {
                Swap::Turn(turn) => Go(64 + turn),
                Swap::Done(new) => {
                    frame.replace(new);
                    Go(frame.add(self.nodes.base(new).container))
                }
                Swap::Failed => Go(60),
                Swap::Full if self.nodes.used() < CAPACITY => NoStore,
                Swap::Full => Full,
            },
            70 => {
                let route = self.nodes.route(frame.stack.top());
                if route.left == frame.popped {
                    return Go(71);
                }
                frame.key = route.key;
                Go(72)
            }
            71 => self.following(frame, self.nodes.route(frame.stack.top()).right),
            72 => {
                let route = self.nodes.route(frame.stack.top());
                if route.valid && route.key > frame.key {
                    return Go(71);
                }
                frame.stack.pop();
                Go(if frame.stack.is_empty() { 81 } else { 72 })
            }
            73 => self.following(frame, self.nodes.route(frame.stack.top()).left),
            74 => {
                let store = frame.asked().store;
                if self.nodes.depths.stores().result(store).is_some() {
                    return Go(82);
                }
                let base = self.nodes.base(frame.base);
                match base.kind {
                    Kind::Range(asked) if asked.store == store => Go(frame.add(base.container)),
                    _ => Go(76),
                }
            }
            76 => match self.nodes.check(frame.base) {
                Check::Replaceable => Go(77),
                _ => {
                    me.base = frame.base;
                    Go(15)
                }
            },
            77..=80 => {
                let asked = frame.asked();
                let make = |tree: &mut Self| tree.new_range(frame.base, asked);
                match self.swap_base(me.place - 77, frame.base, make) {
                    Swap::Turn(turn) => Go(77 + turn),
                    Swap::Done(new) => {
                        frame.replace(new);
                        Go(frame.add(self.nodes.base(new).container))
                    }
                    Swap::Failed => Back,
                    Swap::Full => Full,
                }
            }
            81 => {
                let store = frame.asked().store;
                self.nodes.depths.stores_mut().fill(store, frame.done);
                Go(82)
            }
            82 => {
                let result = self.nodes.depths.stores().result(frame.asked().store);
                pile.frames.pop();
                if me.action != RANGE || !pile.frames.is_empty() {
                    return Back;
                }
                let upper = D::number(me.extra) as u8;
                pile.found = result.expect("82 reads a result") & between(me.station, upper);
                Finish(Answer::of(pile.found != 0))
            }
            place => unreachable!("place {place}"),
        }
    }

    /// Places 60 and 61 read `id`.
    fn first(&self, frame: &mut Frame, id: Id) -> Next {
        frame.stack.push(id);
        if self.nodes.is_route(id) {
            return Go(61);
        }
        frame.base = id;
        let Some(store) = frame.store else {
            return Go(62);
        };
        let base = self.nodes.base(id);
        match base.kind {
            Kind::Range(asked) if asked.store == store => Go(frame.add(base.container)),
            _ => Go(82),
        }
    }

    /// Places 71 and 73 read `id`.
    fn following(&self, frame: &mut Frame, id: Id) -> Next {
        frame.stack.push(id);
        if self.nodes.is_route(id) {
            return Go(73);
        }
        frame.base = id;
        Go(74)
    }

    /// The first range base of a query, and its store.
    fn open(&mut self, frame: &mut Frame) -> Option<Id> {
        let store = self.nodes.depths.stores().shown;
        if store == STORES {
            return None;
        }
        let asked = Asked {
            lower: frame.lower,
            upper: frame.upper,
            store: store as StoreId,
        };
        let id = self.new_range(frame.base, asked)?;
        self.nodes.depths.stores_mut().shown += 1;
        frame.store = Some(asked.store);
        Some(id)
    }

    /// A range base with what `old` holds.
    fn new_range(&mut self, old: Id, asked: Asked) -> Option<Id> {
        let base = Base {
            kind: Kind::Range(asked),
            ..*self.nodes.base(old)
        };
        self.nodes.add(base, old)
    }
}
