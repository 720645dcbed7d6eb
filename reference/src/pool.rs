//! Pools, slots and the tapes in them.

use crate::faults::{Faults, MARK, RESIDUE, SIZE, STRANGER};
use crate::matrix::Matrix;
use crate::Terms;

pub const HEADER: usize = 7;

#[derive(Clone, Copy, Debug, PartialEq, Eq)]
pub enum End {
    Left,
    Right,
    Blinder,
    Solver,
}

impl End {
    pub fn is_system(self) -> bool {
        matches!(self, End::Blinder | End::Solver)
    }

    /// Height and width of each matrix of the end's half, in its order.
    pub fn shapes(self, t: &Terms) -> Vec<(usize, usize)> {
        let (m, k, p) = (t.rows(), t.inner(), t.columns());
        let own = match self {
            End::Left | End::Blinder => (m, k),
            End::Right | End::Solver => (k, p),
        };
        let mut shapes = vec![own, (m, p)];
        if self.is_system() {
            shapes.extend([(m, m), (m, m)]);
        }
        shapes
    }

    pub fn body(self, t: &Terms) -> usize {
        self.shapes(t).iter().map(|(h, w)| h * w).sum()
    }
}

/// Where a call finds its tape: a pool, its slot length, and the slot's index.
pub struct Place<'a> {
    pub pool: &'a mut [u32],
    pub length: usize,
    pub index: usize,
}

impl Place<'_> {
    pub fn is_there(&self) -> bool {
        self.length != 0 && self.index < self.pool.len() / self.length
    }

    pub fn slot(&self) -> &[u32] {
        &self.pool[self.index * self.length..][..self.length]
    }

    pub fn slot_mut(&mut self) -> &mut [u32] {
        &mut self.pool[self.index * self.length..][..self.length]
    }

    pub fn mark(&mut self, mark: u32) {
        self.slot_mut()[0] = mark;
    }

    /// Mark 3, and zeros in all matrices.
    pub fn spend(&mut self, end: End, t: &Terms) {
        let size = end.body(t);
        self.mark(3);
        self.slot_mut()[HEADER..HEADER + size].fill(0);
    }

    /// The matrices of the end's half.
    pub fn half(&self, end: End, t: &Terms) -> Vec<Matrix> {
        let mut rest = &self.slot()[HEADER..];
        let mut cut = |(h, w): &(usize, usize)| {
            let (own, after) = rest.split_at(h * w);
            rest = after;
            Matrix::new(t.q, *h, *w, own)
        };
        end.shapes(t).iter().map(|shape| cut(shape)).collect()
    }
}

impl Faults {
    /// Modulus, sides and numbers of a session, as its terms state them.
    pub fn terms(&mut self, is_system: bool, t: &Terms) {
        self.modulus(t.q);
        if is_system {
            self.prime(t.q);
            self.system_sides(t.m, t.k, t.p);
        } else {
            self.product_sides(t.m, t.k, t.p);
        }
        self.unless(t.session != 0 && t.tape != 0, SIZE);
    }

    pub fn place(&mut self, place: &Place) {
        self.unless(place.is_there(), SIZE);
    }

    /// The slot has room for the end's half; asked only where the sides fit.
    pub fn room_for(&mut self, end: End, t: &Terms, place: &Place) {
        if self.none_to(SIZE) {
            self.unless(HEADER + end.body(t) <= place.length, SIZE);
        }
    }

    /// The half in the slot: mark, numbers, and optionally its elements. Asked only where all sizes fit.
    pub fn half(&mut self, end: End, t: &Terms, place: &Place, mark: u32, elements: bool) {
        if !self.none_to(SIZE) {
            return;
        }
        let slot = place.slot();
        self.unless(slot[0] == mark, MARK);
        let sort = u32::from(end.is_system());
        self.unless(slot[1..HEADER] == [t.tape, sort, t.q, t.m, t.k, t.p], STRANGER);
        if elements {
            self.unless(slot[HEADER..HEADER + end.body(t)].iter().all(|w| *w < t.q), RESIDUE);
        }
    }
}
