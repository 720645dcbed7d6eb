//! The sizes that a host asks for (RULES 11.5); 0 where there is none.

use crate::faults::Faults;
use crate::message::{count, is_kind, is_kind_of};
use crate::pool::{End, HEADER};
use crate::system::scratch_size;
use crate::{line, Message, Terms};

/// Terms of the sides that fit a product, or a system or determinant.
fn fitting(is_system: bool, m: u32, k: u32, p: u32) -> Option<Terms> {
    let mut faults = Faults::new();
    if is_system {
        faults.system_sides(m, k, p);
    } else {
        faults.product_sides(m, k, p);
    }
    (faults.lowest() == 0).then_some(Terms { m, k, p, ..Default::default() })
}

/// An end, and terms of the sides that fit it.
fn of_end(end: u32, m: u32, k: u32, p: u32) -> Option<(End, Terms)> {
    let end = End::numbered(end)?;
    Some((end, fitting(end.is_system(), m, k, p)?))
}

pub fn tape_words(end: u32, m: u32, k: u32, p: u32) -> usize {
    of_end(end, m, k, p).map_or(0, |(end, t)| HEADER + end.body(&t))
}

pub fn scratch_words(end: u32, m: u32, k: u32, p: u32) -> usize {
    match of_end(end, m, k, p) {
        Some((End::Blinder, t)) => scratch_size(&t),
        _ => 0,
    }
}

pub fn coin_count(end: u32, m: u32, k: u32, p: u32) -> usize {
    match of_end(end, m, k, p) {
        Some((End::Left, t)) => t.rows() * t.columns(),
        Some((End::Blinder, t)) => scratch_size(&t),
        _ => 0,
    }
}

pub fn deal_count(sort: u32, m: u32, k: u32, p: u32) -> usize {
    let masks = |t: Terms| t.rows() * t.inner() + t.inner() * t.columns() + t.rows() * t.columns();
    match sort {
        0 => fitting(false, m, k, p).map_or(0, masks),
        1 => fitting(true, m, k, p).map_or(0, |t| masks(t) + 3 * t.rows() * t.rows()),
        _ => 0,
    }
}

/// The longest line of a kind is written and measured.
pub fn line_bytes(kind: u32, q: u32, m: u32, k: u32, p: u32) -> usize {
    let terms = Terms { session: u32::MAX, tape: u32::MAX, q, m, k, p };
    let mut faults = Faults::new();
    faults.terms(kind > 2, &terms);
    if !is_kind(kind) || !is_kind_of(kind, &terms) || faults.lowest() != 0 {
        return 0;
    }
    line::write(&Message { kind, terms, residues: vec![q - 1; count(kind, &terms)] }).len()
}
