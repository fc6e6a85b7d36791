//! The depths beside the stations, a row for each base, the stores of range queries, and whether joins are stopped; or
//! nothing at all for a version that has none of these.

use crate::bench::{JOIN, RANGE};
use crate::node::{Id, CAPACITY};
use crate::range::Stores;

/// The greatest depth, in millimetres.
pub const DEEPEST: u16 = 9999;

pub trait Depths {
    /// A depth, or nothing.
    type Depth: Copy + Default;
    /// Whether depths are kept.
    const KEPT: bool;
    /// The last action: range queries come with depths.
    const LAST: u8;
    fn new() -> Self;
    fn depth(number: u16) -> Self::Depth;
    fn number(depth: Self::Depth) -> u16;
    fn get(&self, id: Id, station: u8) -> u16;
    fn set(&mut self, id: Id, station: u8, depth: Self::Depth);
    /// Node `to` gets the depths of node `from`.
    fn copy(&mut self, from: Id, to: Id);
    fn stores(&self) -> &Stores;
    fn stores_mut(&mut self) -> &mut Stores;
    /// Whether a search that has come far stops joins.
    fn stops(&self) -> bool;
}

/// Version 1 has none.
#[derive(Clone)]
pub struct NoDepths;

impl Depths for NoDepths {
    type Depth = ();
    const KEPT: bool = false;
    const LAST: u8 = JOIN;

    #[inline(always)]
    fn new() -> Self {
        NoDepths
    }

    #[inline(always)]
    fn depth(_: u16) {}

    #[inline(always)]
    fn number(_: ()) -> u16 {
        0
    }

    #[inline(always)]
    fn get(&self, _: Id, _: u8) -> u16 {
        0
    }

    #[inline(always)]
    fn set(&mut self, _: Id, _: u8, _: ()) {}

    #[inline(always)]
    fn copy(&mut self, _: Id, _: Id) {}

    fn stores(&self) -> &Stores {
        unreachable!("version 1 has no stores")
    }

    fn stores_mut(&mut self) -> &mut Stores {
        unreachable!("version 1 has no stores")
    }

    #[inline(always)]
    fn stops(&self) -> bool {
        false
    }
}

/// The stop of joins: off, on, or as a bench is told.
pub trait Stop: Copy + Default {
    fn is_on(self) -> bool;
}

#[derive(Clone, Copy, Default)]
pub struct Off;

#[derive(Clone, Copy, Default)]
pub struct On;

impl Stop for Off {
    #[inline(always)]
    fn is_on(self) -> bool {
        false
    }
}

impl Stop for On {
    #[inline(always)]
    fn is_on(self) -> bool {
        true
    }
}

impl Stop for bool {
    fn is_on(self) -> bool {
        self
    }
}

/// One for each station of each node; that of a station which is not in the container is of no account.
#[derive(Clone)]
pub struct RowsOf<S> {
    depths: [[u16; 64]; CAPACITY],
    stores: Stores,
    pub(crate) stop: S,
}

/// Those of version 2, of version 3, and of either.
pub type Rows = RowsOf<Off>;
pub type StopRows = RowsOf<On>;
pub type AnyRows = RowsOf<bool>;

impl<S: Stop> Depths for RowsOf<S> {
    type Depth = u16;
    const KEPT: bool = true;
    const LAST: u8 = RANGE;

    #[inline]
    fn new() -> Self {
        RowsOf {
            depths: [[0; 64]; CAPACITY],
            stores: Stores::new(),
            stop: S::default(),
        }
    }

    #[inline(always)]
    fn depth(number: u16) -> u16 {
        number
    }

    #[inline(always)]
    fn number(depth: u16) -> u16 {
        depth
    }

    #[inline]
    fn get(&self, id: Id, station: u8) -> u16 {
        self.depths[usize::from(id)][usize::from(station)]
    }

    #[inline]
    fn set(&mut self, id: Id, station: u8, depth: u16) {
        self.depths[usize::from(id)][usize::from(station)] = depth;
    }

    #[inline]
    fn copy(&mut self, from: Id, to: Id) {
        self.depths[usize::from(to)] = self.depths[usize::from(from)];
    }

    #[inline]
    fn stores(&self) -> &Stores {
        &self.stores
    }

    #[inline]
    fn stores_mut(&mut self) -> &mut Stores {
        &mut self.stores
    }

    #[inline(always)]
    fn stops(&self) -> bool {
        self.stop.is_on()
    }
}
