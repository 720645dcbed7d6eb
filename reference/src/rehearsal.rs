//! The rehearsal: five lines in, two messages and two shares out.

use crate::dealer::deal_product;
use crate::faults::{Faults, DRY, FORM, SIZE};
use crate::line::{numbers, text, write};
use crate::pool::{End, Place, HEADER};
use crate::product::{left_step, right_first, right_last};
use crate::words::draw;
use crate::Terms;

pub fn rehearse(input: &[u8]) -> String {
    run(input).unwrap_or_else(|number| format!("refused,{number}\n"))
}

fn run(input: &[u8]) -> Result<String, u32> {
    let mut lines = input.split_inclusive(|b| *b == b'\n');
    let mut next = || lines.next().and_then(numbers).ok_or(FORM);
    let (first, x, y, dealer, left) = (next(), next(), next(), next(), next());
    let (first, x, y, dealer, left) = (first?, x?, y?, dealer?, left?);
    let [q, m, k, p, session, tape] = first[..] else { return Err(FORM) };
    let t = Terms::product(session, tape, q, m, k, p);
    let mut faults = Faults::new();
    faults.terms(false, &t);
    if faults.none_to(SIZE) {
        let (mk, kp, mp) = (t.rows() * t.inner(), t.inner() * t.columns(), t.rows() * t.columns());
        faults.input(q, mk, &x);
        faults.input(q, kp, &y);
        faults.unless(draw(q, mk + kp + mp, &dealer).is_some(), DRY);
        faults.unless(draw(q, mp, &left).is_some(), DRY);
    }
    if faults.lowest() != 0 {
        return Err(faults.lowest());
    }
    let length = HEADER + End::Left.body(&t).max(End::Right.body(&t));
    let (mut one, mut two) = (vec![0; length], vec![0; length]);
    let mut left_place = Place { pool: &mut one, length, index: 0 };
    let mut right_place = Place { pool: &mut two, length, index: 0 };
    let dealt = deal_product(&mut left_place, &mut right_place, tape, q, m, k, p, &dealer);
    let (sent, session) = right_first(t, &mut right_place, &y, usize::MAX);
    let answered = left_step(t, &mut left_place, &x, &left, &sent.message, usize::MAX, usize::MAX);
    let (closed, _) = right_last(session, &mut right_place, &answered.message, usize::MAX);
    for reply in [&dealt, &sent, &answered, &closed] {
        if reply.number != 0 {
            return Err(reply.number);
        }
    }
    Ok(format!("{}{}left,{}right,{}", write(&sent.message), write(&answered.message), text(&answered.result), text(&closed.result)))
}
