//! The last two steps of a determinant: the solver sends that of W + V, which is P × (L + M) × Q, and the blinder divides by those of P
//! and Q. A sum without an inverse answers 0.

use crate::faults::{SINGULAR, TURN};
use crate::matrix::{inverse_of, Matrix};
use crate::message::compose;
use crate::pool::{End, Place};
use crate::system::{blinder_later, scratch_size, solver_later, Blinder, Solver};
use crate::{Message, Reply};

pub fn solver_determinant(s: Solver, place: &mut Place, a: &Message, room: usize) -> (Reply, Solver) {
    let mut faults = solver_later(4, &s, place, a, 6, room);
    faults.unless(s.terms.last_kind() == 6, TURN);
    if faults.lowest() != 0 {
        return (Reply::refused(faults.lowest()), s);
    }
    let t = s.terms;
    let sum = a.parts()[0].plus(&place.half(End::Solver, &t)[3]);
    let d = Matrix { q: sum.q, rows: vec![vec![sum.determinant()]] };
    place.spend(End::Solver, &t);
    (Reply { message: compose(6, t, &[d]), ..Default::default() }, s.closed())
}

/// P stands in the scratch and Q on the tape, and both had an inverse when they were drawn: only a host that has altered them is refused.
pub fn blinder_determinant(s: Blinder, place: &mut Place, scratch: &mut [u32], a: &Message, room: usize) -> (Reply, Blinder) {
    let faults = blinder_later(6, &s, place, scratch, a, |_| 1, room);
    if faults.lowest() != 0 {
        return (Reply::refused(faults.lowest()), s);
    }
    let (t, n) = (s.terms, s.terms.rows());
    let q = u64::from(t.q);
    let p = Matrix::new(t.q, n, n, &scratch[..n * n]);
    let divisor = p.determinant() * place.half(End::Blinder, &t)[2].determinant() % q;
    if divisor == 0 {
        return (Reply::refused(SINGULAR), s);
    }
    let answer = u64::from(a.residues[0]) * inverse_of(divisor, q) % q;
    place.spend(End::Blinder, &t);
    scratch[..scratch_size(&t)].fill(0);
    (Reply { result: vec![answer as u32], ..Default::default() }, s.closed())
}
