//! Determinant sessions: a run by hand, sums of every rank, every refusal at every step, last messages of the other sort, and what the
//! blinder's last step divides by.

use super::cases::{layout, plan, printed_run, refusals, singular, whole, Given};
use super::damage::{Damage, Edit};
use super::plan::{matrix_seed, Layout, Plan, Step};
use super::random::Random;
use super::writer::Writer;
use crate::faults::{MARK, RESIDUE, SINGULAR, SIZE, TURN};
use crate::line;
use crate::machine::*;
use crate::matrix::Matrix;
use crate::message::count;
use crate::{Message, Terms};

const MODULI: [u32; 4] = [2, 3, 257, 2_147_483_647];
const ROWS: [u32; 4] = [1, 2, 3, 16];

pub fn determinants(writer: &mut Writer) {
    let random = &mut Random(13);
    for (m, answer) in [(1, 3), (3, 0)] {
        by_hand(writer, random, m, answer);
    }
    for (q, n) in MODULI.into_iter().flat_map(|q| ROWS.map(|n| (q, n))) {
        ranks(writer, random, q, n);
    }
    // of n = 1 all messages but the second are of one length
    for t in [Terms::determinant(3, 5, 7, 2), Terms::determinant(3, 6, 5, 1)] {
        let plan = plan(writer, random, true, t);
        refusals(writer, random, &plan);
    }
    let plan_three = plan(writer, random, true, Terms::determinant(3, 7, 3, 3));
    singular(writer, random, &plan_three);
    for t in [Terms::system(3, 8, 7, 2), Terms::determinant(3, 8, 7, 2), Terms::system(3, 8, 7, 1), Terms::determinant(3, 8, 7, 1)] {
        last_messages(writer, random, t);
    }
    for t in [Terms::determinant(3, 9, 257, 2), Terms::determinant(3, 9, 2, 3), Terms::determinant(3, 9, 2_147_483_647, 16)] {
        divisors(writer, random, t);
    }
}

/// The system of RULES 9.3 without its vectors, with this M: L is 2, and the answer is that of L + M.
fn by_hand(writer: &mut Writer, random: &mut Random, m: u32, answer: u32) {
    let none: Given = (&[], &[]);
    let given = [(&[1, 4, 0, 3, 2, 1][..], &[][..]), (&[], &[2]), (&[2, 1], &[m]), none, none, none, none];
    assert_eq!(printed_run(writer, random, true, Terms::determinant(9, 4, 5, 1), (6, 2), &given), [0; 7]);
    assert_eq!(writer.word(RESULT, 0), answer);
}

/// The determinant by minors of the first rows, those of each set of columns from those of one column less.
pub fn expansion(a: &Matrix) -> u64 {
    let n = a.rows.len();
    let mut minors = vec![0; 1 << n];
    minors[0] = 1 % a.q;
    for set in 1..1usize << n {
        let row = &a.rows[set.count_ones() as usize - 1];
        for (j, entry) in row.iter().enumerate().filter(|(j, _)| set >> j & 1 == 1) {
            let term = entry * minors[set & !(1 << j)] % a.q;
            let behind = (set >> j).count_ones() - 1;
            minors[set] = (minors[set] + if behind % 2 == 0 { term } else { a.q - term }) % a.q;
        }
    }
    minors[(1 << n) - 1]
}

/// A session for each rank of the sum, all zeros to the largest, and its answer printed.
fn ranks(writer: &mut Writer, random: &mut Random, q: u32, n: u32) {
    let t = Terms::determinant(7, n, q, n);
    let layout = layout(true, &t);
    writer.lay(random, layout);
    for rank in 0..=n as usize {
        // modulo 2 the one L and the one M of n = 1 are both 1, and their sum is 0; any other q and n allow every rank
        if (q, n, rank) != (2, 1, 1) {
            of_rank(writer, random, t, layout, rank);
        }
    }
}

fn of_rank(writer: &mut Writer, random: &mut Random, t: Terms, layout: Layout, rank: usize) {
    let plan = Plan { detail: 1, generous: rank % 2 == 0, ..Plan::new(random, true, t, layout, 1, 0).expect("seeds") };
    writer.free(&plan);
    let (sum, m) = summands(random, &plan, rank);
    for step in plan.steps() {
        let mut r = plan.registers(*step);
        if *step == Step::BlinderFirst {
            writer.put(INPUT, 0, &m.words());
            r[22] = 0;
        }
        assert_eq!(writer.made(&plan, *step, r), 0);
    }
    writer.print(RESULT, 0, 1);
    let answer = u64::from(writer.word(RESULT, 0));
    assert_eq!(answer, expansion(&sum));
    assert_eq!(answer == 0, rank < t.rows());
}

/// A sum of a rank that the plan's L and some M with an inverse have, and that M.
fn summands(random: &mut Random, plan: &Plan, rank: usize) -> (Matrix, Matrix) {
    let (q, n) = (plan.terms.q, plan.terms.rows());
    let l = Matrix::new(q, n, n, &seeded(plan.inputs[0].0, q, n * n));
    let ones = Matrix { q: u64::from(q), rows: (0..n).map(|i| (0..n).map(|j| u64::from(i == j && i < rank)).collect()).collect() };
    loop {
        let [a, b] =
            [(); 2].map(|()| matrix_seed(random, q, n, true).expect("a seed")).map(|seed| Matrix::new(q, n, n, &seeded(seed, q, n * n)));
        let sum = a.times(&ones).times(&b);
        let m = sum.minus(&l);
        if m.is_regular() {
            return (sum, m);
        }
    }
}

/// Messages of kinds 5 and 6, of p = n and of p = n + 1, at every step that takes a message, and then the one that was sent.
fn last_messages(writer: &mut Writer, random: &mut Random, t: Terms) {
    let plan = plan(writer, random, true, t);
    for step in plan.steps() {
        if step.takes() != 0 {
            last_kinds(writer, &plan, *step);
        }
        assert_eq!(writer.right(&plan, *step), 0);
    }
}

/// A kind that is not of its p is refused by 4, and one of its p, which is not due, by 5.
fn last_kinds(writer: &mut Writer, plan: &Plan, step: Step) {
    let n = plan.terms.m;
    for (kind, p, number) in [(5, n, SIZE), (5, n + 1, TURN), (6, n, TURN), (6, n + 1, SIZE)] {
        if number == SIZE || kind != step.takes() {
            let terms = Terms { p, ..plan.terms };
            writer.post(SPARE, line::write(&Message { kind, terms, residues: vec![1; count(kind, &terms)] }).as_bytes());
            let mut r = plan.registers(step);
            r[16] = SPARE;
            assert_eq!(writer.call(step.call(), &r), number);
        }
    }
}

/// The blinder's last step with a P or a Q that a host has altered. Without an inverse they are refused, behind all else, and nothing
/// changes; with one the answer is divided by what stands there.
fn divisors(writer: &mut Writer, random: &mut Random, t: Terms) {
    let plan = plan(writer, random, true, t);
    let last = |writer: &mut Writer| plan.steps()[..6].iter().for_each(|step| assert_eq!(writer.right(&plan, *step), 0));
    last(writer);
    for (kept, dealt) in [(true, false), (false, true), (true, true)] {
        let damage = writer.singular_divisor(random, &plan, kept, dealt);
        assert_eq!(writer.damaged(&damage), SINGULAR);
        // a 0 is divided as any other
        assert_eq!(writer.damaged(&Damage { edits: vec![Edit::Number(7, 0)], ..damage.clone() }), SINGULAR);
        for (number, other) in lower(&plan) {
            assert_eq!(writer.damaged(&damage.and(&other, &plan.registers(Step::BlinderDeterminant))), number);
        }
    }
    assert_eq!(writer.right(&plan, Step::BlinderDeterminant), 0);
    writer.print(RESULT, 0, 1);
    altered(writer, random, &plan, last);
    writer.free(&plan);
    whole(writer, &plan);
}

/// Faults that go before a matrix without an inverse, with their numbers.
fn lower(plan: &Plan) -> Vec<(u32, Damage)> {
    let registers = plan.registers(Step::BlinderDeterminant);
    let right = Damage::none(NEXT, registers);
    let mut short = right.clone();
    short.registers[20] = 0;
    let (pool, slot) = plan.slot(Step::BlinderDeterminant);
    let spent = Damage { pokes: vec![(pool, slot, 3)], ..right.clone() };
    let no_residue = Damage { edits: vec![Edit::Number(7, plan.terms.q)], ..right };
    vec![(SIZE, short), (MARK, spent), (RESIDUE, no_residue)]
}

/// The session once more, with another P that has an inverse, and with 1 for the solver's determinant.
fn altered(writer: &mut Writer, random: &mut Random, plan: &Plan, last: impl Fn(&mut Writer)) {
    let (q, n) = (plan.terms.q, plan.terms.rows());
    let r = plan.registers(Step::BlinderDeterminant);
    for edit in [vec![], vec![Edit::Number(7, 1)]] {
        writer.free(plan);
        last(writer);
        let other = seeded(matrix_seed(random, q, n, true).expect("a seed"), q, n * n);
        writer.put(SCRATCHES, r[14] as usize, &other);
        assert_eq!(writer.damaged(&Damage { edits: edit, ..Damage::none(NEXT, r) }), 0);
        writer.print(RESULT, 0, 1);
    }
}
