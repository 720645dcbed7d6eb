//! The dealer.

use crate::faults::{Faults, DRY, MARK, SINGULAR, SIZE};
use crate::matrix::Matrix;
use crate::pool::{End, Place, HEADER};
use crate::words::draw;
use crate::{Reply, Terms};

/// Deals a product's tape, left's half into the first place and right's into the second.
pub fn deal_product(first: &mut Place, second: &mut Place, tape: u32, q: u32, m: u32, k: u32, p: u32, words: &[u32]) -> Reply {
    deal(first, second, false, Terms { session: 1, tape, q, m, k, p }, words)
}

/// Deals a system's or a determinant's tape, blinder's half into the first place and solver's into the second.
pub fn deal_system(first: &mut Place, second: &mut Place, tape: u32, q: u32, m: u32, k: u32, p: u32, words: &[u32]) -> Reply {
    deal(first, second, true, Terms { session: 1, tape, q, m, k, p }, words)
}

fn deal(first: &mut Place, second: &mut Place, is_system: bool, t: Terms, words: &[u32]) -> Reply {
    let ends = if is_system { [End::Blinder, End::Solver] } else { [End::Left, End::Right] };
    let mut faults = Faults::new();
    faults.terms(is_system, &t);
    faults.place(first);
    faults.place(second);
    faults.room_for(ends[0], &t, first);
    faults.room_for(ends[1], &t, second);
    if !faults.none_to(SIZE) {
        return Reply::refused(faults.lowest());
    }
    for place in [&*first, &*second] {
        faults.unless(matches!(place.slot()[0], 0 | 3), MARK);
    }
    let (m, k, p) = (t.rows(), t.inner(), t.columns());
    let mut shapes = vec![(m, k), (k, p), (m, p)];
    if is_system {
        shapes.extend([(m, m); 3]);
    }
    let drawn = draw(t.q, shapes.iter().map(|(h, w)| h * w).sum(), words);
    faults.unless(drawn.is_some(), DRY);
    let (residues, read) = drawn.unwrap_or_default();
    if !faults.none_to(DRY) {
        return Reply::refused(faults.lowest());
    }
    let mut rest = &residues[..];
    let mut next = |(h, w): (usize, usize)| {
        let (own, after) = rest.split_at(h * w);
        rest = after;
        Matrix::new(t.q, h, w, own)
    };
    let dealt: Vec<Matrix> = shapes.iter().map(|shape| next(*shape)).collect();
    let b0 = dealt[0].times(&dealt[1]).minus(&dealt[2]);
    let halves = if is_system {
        faults.unless(dealt[3].is_regular(), SINGULAR);
        let v = dealt[4].times(&dealt[3]).plus(&dealt[5]);
        [pick(&dealt, &[0, 2, 3, 5]), vec![dealt[1].clone(), b0, dealt[4].clone(), v]]
    } else {
        [pick(&dealt, &[0, 2]), vec![dealt[1].clone(), b0]]
    };
    if faults.lowest() != 0 {
        return Reply::refused(faults.lowest());
    }
    write(first, &t, is_system, &halves[0]);
    write(second, &t, is_system, &halves[1]);
    Reply { read, ..Default::default() }
}

fn write(place: &mut Place, t: &Terms, is_system: bool, half: &[Matrix]) {
    let header = [1, t.tape, u32::from(is_system), t.q, t.m, t.k, t.p];
    let body: Vec<u32> = half.iter().flat_map(Matrix::words).collect();
    let slot = place.slot_mut();
    slot[..HEADER].copy_from_slice(&header);
    slot[HEADER..HEADER + body.len()].copy_from_slice(&body);
}

fn pick(matrices: &[Matrix], places: &[usize]) -> Vec<Matrix> {
    places.iter().map(|i| matrices[*i].clone()).collect()
}
