//! Calls that damage makes too seldom: with a matrix that has no inverse, in a session that is right otherwise, and with a message of
//! another kind.

use super::damage::Damage;
use super::driver::MODULI;
use super::plan::{is_regular, Plan, Step};
use super::random::Random;
use super::writer::Writer;
use crate::line;
use crate::machine::*;
use crate::message::count;
use crate::pool::HEADER;
use crate::Message;

/// A matrix with one row, or column, replaced by another or by a sum of multiples of all others.
fn singular(random: &mut Random, q: u32, n: usize, words: &[u32]) -> Vec<u32> {
    let by_rows = random.once_in(2);
    let at = |i: usize, j: usize| if by_rows { i * n + j } else { j * n + i };
    let replaced = random.below(n as u64) as usize;
    let mut factors: Vec<u64> = if random.once_in(2) {
        (0..n).map(|_| random.below(u64::from(q))).collect()
    } else {
        let copied = (replaced + 1) % n;
        (0..n).map(|i| u64::from(i == copied)).collect()
    };
    factors[replaced] = 0;
    let mut made = words.to_vec();
    for j in 0..n {
        let sum = (0..n).fold(0, |sum, i| (sum + factors[i] * u64::from(words[at(i, j)])) % u64::from(q));
        made[at(replaced, j)] = sum as u32;
    }
    made
}

impl Writer {
    /// The step with a matrix without an inverse, where it judges one that it is handed, draws, or finds in scratch and tape.
    pub fn singular(&mut self, random: &mut Random, plan: &Plan, step: Step) {
        let (q, n) = (plan.terms.q, plan.terms.rows());
        let mut registers = plan.registers(step);
        let one_or_both = [(true, false), (false, true), (true, true)];
        let (of_input, of_words) = match step {
            Step::Deal => (false, true),
            Step::SolverFirst => (true, false),
            Step::BlinderFirst => *random.one_of(&one_or_both),
            Step::BlinderDeterminant => {
                let (kept, dealt) = *random.one_of(&one_or_both);
                let damage = self.singular_divisor(random, plan, kept, dealt);
                self.damaged(&damage);
                return;
            }
            _ => return,
        };
        if of_input {
            let matrix = singular(random, q, n, &seeded(registers[22], q, n * n));
            self.hand_over(&matrix, &mut registers);
        }
        if of_words {
            // Q is drawn behind X0, Y0 and A0; P is drawn first
            let before = if step == Step::Deal { n * n + 2 * n * plan.terms.columns() } else { 0 };
            self.draw_singular(random, q, n, before, &mut registers);
        }
        self.call(step.call(), &registers);
    }

    /// The blinder's first step with an M that has an inverse, where L + M has none.
    pub fn singular_sum(&mut self, random: &mut Random, plan: &Plan) -> u32 {
        let (q, n) = (plan.terms.q, plan.terms.rows());
        let l = seeded(plan.inputs[0].0, q, n * n);
        let less_l = |sum: &[u32]| -> Vec<u32> {
            sum.iter().zip(&l).map(|(s, l)| ((u64::from(*s) + u64::from(q - l)) % u64::from(q)) as u32).collect()
        };
        let tried = (0..20).find_map(|_| {
            let words = seeded(random.from(1, 60_000), q, n * n);
            Some(less_l(&singular(random, q, n, &words))).filter(|m| is_regular(q, n, m))
        });
        // a sum of zeros always serves
        let m = tried.unwrap_or_else(|| less_l(&vec![0; n * n]));
        let mut registers = plan.registers(Step::BlinderFirst);
        self.hand_over(&m, &mut registers);
        self.made(plan, Step::BlinderFirst, registers)
    }

    /// A determinant's last step of the blinder with a P in the scratch, or a Q on the tape, that has no inverse.
    pub fn singular_divisor(&self, random: &mut Random, plan: &Plan, kept: bool, dealt: bool) -> Damage {
        let (t, n) = (&plan.terms, plan.terms.rows());
        let registers = plan.registers(Step::BlinderDeterminant);
        let (pool, slot) = plan.slot(Step::BlinderDeterminant);
        let places = [(kept, SCRATCHES, registers[14] as usize), (dealt, pool, slot + HEADER + n * t.inner() + n * t.columns())];
        let mut damage = Damage::none(NEXT, registers);
        for (_, array, at) in places.into_iter().filter(|place| place.0) {
            let old = self.machine.words(array, at as u32, t.m * t.m);
            let new = singular(random, t.q, n, &old);
            damage.pokes.extend((0..n * n).filter(|i| old[*i] != new[*i]).map(|i| (array, at + i, new[i])));
        }
        damage
    }

    /// The step with a message of another kind, of the session's numbers or of another q. A last message of the other sort is sometimes of
    /// the other p, with which it is a message.
    pub fn stray(&mut self, random: &mut Random, plan: &Plan, step: Step) {
        let kinds: Vec<u32> = (1..=6).filter(|kind| *kind != step.takes()).collect();
        let (kind, mut terms) = (*random.one_of(&kinds), plan.terms);
        if kind > 4 && random.once_in(2) {
            (terms.k, terms.p) = (terms.m, terms.m + u32::from(kind == 5));
        }
        if random.once_in(3) {
            terms.q = *random.one_of(&MODULI);
        }
        let residues = seeded(random.from(1, 60_000), terms.q, count(kind, &terms));
        self.post(SPARE, line::write(&Message { kind, terms, residues }).as_bytes());
        let mut registers = plan.registers(step);
        registers[16] = SPARE;
        self.call(step.call(), &registers);
    }

    /// The input with another matrix in front of its vector.
    fn hand_over(&mut self, matrix: &[u32], registers: &mut Registers) {
        let words = matrix.len() as u32;
        self.say(&[1, INPUT as u32, words, registers[25] / 4 - words, registers[24], registers[21]]);
        self.put(INPUT, 0, matrix);
        (registers[22], registers[24]) = (0, 0);
    }

    /// The raw words with some replaced, so that the matrix that is drawn behind so many residues has no inverse.
    fn draw_singular(&mut self, random: &mut Random, q: u32, n: usize, before: usize, registers: &mut Registers) {
        let (seed, words) = (registers[26], registers[27] / 4);
        let raw = seeded(seed, 0, words as usize);
        let limit = (1 << 32) / u64::from(q) * u64::from(q);
        let kept = (0..raw.len()).filter(|i| u64::from(raw[*i]) < limit);
        let places: Vec<usize> = kept.skip(before).take(n * n).collect();
        let drawn: Vec<u32> = places.iter().map(|i| raw[*i] % q).collect();
        self.say(&[1, RAW as u32, 0, words, seed, 0]);
        for ((place, old), new) in places.iter().zip(&drawn).zip(singular(random, q, n, &drawn)) {
            if *old != new {
                self.put(RAW, *place, &[new]);
            }
        }
        registers[26] = 0;
    }
}
