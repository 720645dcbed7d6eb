//! The three steps of a product, and right's drop.

use crate::faults::{Faults, DRY, SIZE, TURN};
use crate::matrix::Matrix;
use crate::message::{compose, count};
use crate::pool::{End, Place};
use crate::words::draw;
use crate::{Message, Reply, Terms};

/// Right's session. `due` is the kind of message that it waits for, 0 when closed.
#[derive(Clone, Copy, Debug, Default, PartialEq, Eq)]
pub struct Right {
    pub terms: Terms,
    pub due: u32,
}

/// The faults of a first step that stand before its own: terms, place and half.
pub fn first(faults: &mut Faults, end: End, t: &Terms, place: &Place) {
    faults.terms(end.is_system(), t);
    faults.place(place);
    faults.room_for(end, t, place);
    faults.half(end, t, place, 1, true);
}

/// The faults of a later step or a drop. Of a closed session nothing but the place is judged.
pub fn later(faults: &mut Faults, end: End, due: u32, t: &Terms, place: &Place, elements: bool) {
    faults.place(place);
    if due == 0 {
        faults.unless(false, TURN);
        return;
    }
    faults.terms(end.is_system(), t);
    faults.room_for(end, t, place);
    faults.half(end, t, place, 2, elements);
}

pub fn right_first(t: Terms, place: &mut Place, y: &[u32], room: usize) -> (Reply, Right) {
    let mut faults = Faults::new();
    first(&mut faults, End::Right, &t, place);
    if faults.none_to(SIZE) {
        faults.input(t.q, t.inner() * t.columns(), y);
        faults.room(count(1, &t), room);
    }
    if faults.lowest() != 0 {
        return (Reply::refused(faults.lowest()), Right::default());
    }
    let half = place.half(End::Right, &t);
    let y1 = Matrix::new(t.q, t.inner(), t.columns(), y).minus(&half[0]);
    place.mark(2);
    (Reply { message: compose(1, t, &[y1]), ..Default::default() }, Right { terms: t, due: 2 })
}

pub fn left_step(t: Terms, place: &mut Place, x: &[u32], words: &[u32], a: &Message, room: usize, share_room: usize) -> Reply {
    let mut faults = Faults::new();
    faults.message(a);
    faults.due(1, &t, a);
    first(&mut faults, End::Left, &t, place);
    if !faults.none_to(SIZE) {
        return Reply::refused(faults.lowest());
    }
    let shares = t.rows() * t.columns();
    faults.input(t.q, t.rows() * t.inner(), x);
    faults.room(count(2, &t), room);
    faults.room(shares, share_room);
    let drawn = draw(t.q, shares, words);
    faults.unless(drawn.is_some(), DRY);
    if faults.lowest() != 0 {
        return Reply::refused(faults.lowest());
    }
    let (coins, read) = drawn.unwrap();
    let half = place.half(End::Left, &t);
    let x = Matrix::new(t.q, t.rows(), t.inner(), x);
    let u = Matrix::new(t.q, t.rows(), t.columns(), &coins);
    let x1 = x.plus(&half[0]);
    let r1 = x.times(&a.parts()[0]).minus(&u).minus(&half[1]);
    place.spend(End::Left, &t);
    Reply { number: 0, read, message: compose(2, t, &[x1, r1]), result: coins }
}

pub fn right_last(s: Right, place: &mut Place, a: &Message, share_room: usize) -> (Reply, Right) {
    let t = s.terms;
    let mut faults = Faults::new();
    faults.message(a);
    later(&mut faults, End::Right, s.due, &t, place, true);
    faults.unless(s.due == 2, TURN);
    faults.due(2, &t, a);
    if s.due != 0 && faults.none_to(SIZE) {
        faults.room(t.rows() * t.columns(), share_room);
    }
    if faults.lowest() != 0 {
        return (Reply::refused(faults.lowest()), s);
    }
    let half = place.half(End::Right, &t);
    let parts = a.parts();
    let share = parts[0].times(&half[0]).plus(&parts[1]).minus(&half[1]);
    place.spend(End::Right, &t);
    (Reply { result: share.words(), ..Default::default() }, Right { due: 0, ..s })
}

pub fn right_drop(s: Right, place: &mut Place) -> (Reply, Right) {
    let mut faults = Faults::new();
    later(&mut faults, End::Right, s.due, &s.terms, place, false);
    if faults.lowest() != 0 {
        return (Reply::refused(faults.lowest()), s);
    }
    place.spend(End::Right, &s.terms);
    (Reply::default(), Right { due: 0, ..s })
}
