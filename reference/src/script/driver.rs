//! Sessions with damaged calls between the right ones.

use super::damage::single;
use super::plan::{matrix_seed, tape_size, Layout, Plan, Step};
use super::random::Random;
use super::writer::Writer;
use crate::machine::*;
use crate::Terms;

/// How often a call is damaged before it is made, and how.
#[derive(Clone, Copy)]
pub struct Habit {
    /// One call in so many is preceded by a damaged one.
    pub damaged: u64,
    /// One damaged call in so many may be one that is taken.
    pub taken: u64,
    /// One call in so many is a drop instead.
    pub dropped: u64,
    /// One call in so many that judges an inverse is preceded by one with a singular matrix, and one sum in so many is singular; 0: none.
    pub singular: u64,
    /// One call in so many that takes a message is preceded by one with a message of another kind; 0: none.
    pub stray: u64,
}

/// A session under way.
pub struct Live {
    pub plan: Plan,
    pub stage: usize,
}

pub const PRIMES: [u32; 12] = [2, 3, 5, 7, 11, 257, 65_521, 65_537, 16_777_213, 2_147_483_629, 2_147_483_647, 1_431_655_777];
pub const MODULI: [u32; 10] = [2, 4, 6, 10, 256, 65_536, 1_431_655_766, 2_147_483_646, 2_147_483_647, 1_073_741_824];

/// Sides of a product, within the bounds; large ones fill them.
pub fn product_terms(random: &mut Random, large: bool) -> Terms {
    let q = if random.once_in(2) { *random.one_of(&PRIMES) } else { *random.one_of(&MODULI) };
    let (m, k, p) = match (large, random.below(5)) {
        (true, 0) => (1, 2048, 1),
        (true, 1) => (32, 64, 32),
        (true, 2) => (32, 64, random.from(1, 32)),
        (true, 3) => (random.from(1, 16), 128, 16),
        (true, _) => (1, random.from(1024, 2048), 1),
        _ => (random.from(1, 6), random.from(1, 8), random.from(1, 6)),
    };
    Terms::product(random.from(1, 99), random.from(1, 999), q, m, k, p)
}

/// Of a system or of a determinant.
pub fn system_terms(random: &mut Random, large: bool) -> Terms {
    let n = if large { 16 } else { random.from(1, 5) };
    let of = *random.one_of(&[Terms::system, Terms::determinant]);
    of(random.from(1, 99), random.from(1, 999), *random.one_of(&PRIMES), n)
}

impl Writer {
    /// Both pools filled with words, and mark 0 at each slot.
    pub fn lay(&mut self, random: &mut Random, layout: Layout) {
        for pool in [ONE, TWO] {
            self.say(&[1, pool as u32, 0, layout.words() as u32, random.from(1, 60_000), 0]);
            for slot in 0..layout.slots {
                self.put(pool, slot * layout.size, &[0]);
            }
        }
    }

    /// The call that is due, as it should be. A plan that is not generous has just the room for its line.
    pub fn right(&mut self, plan: &Plan, step: Step) -> u32 {
        self.made(plan, step, plan.registers(step))
    }

    /// The same with other registers.
    pub fn made(&mut self, plan: &Plan, step: Step, mut registers: Registers) -> u32 {
        if !plan.generous && step.sends() {
            registers[19] = self.line_length(step.call(), &registers);
        }
        self.call(step.call(), &registers)
    }

    /// One of the damages of a call, or two at once.
    fn damage(&mut self, random: &mut Random, habit: Habit, plan: &Plan, step: Step) {
        let all = single(plan, step, self);
        let taken = random.once_in(habit.taken);
        for _ in 0..6 {
            let mut damage = random.one_of(&all).clone();
            if plan.is_system && random.once_in(8) {
                if let Some(seed) = matrix_seed(random, plan.terms.q, plan.terms.rows(), false) {
                    damage.registers[22] = seed;
                }
            }
            if step.draws() && random.once_in(8) {
                let bytes = *random.one_of(&[4 * 9000, damage.registers[27] / 8 * 4]);
                damage.registers[26..28].copy_from_slice(&[random.from(1, 60_000), bytes]);
            }
            if random.once_in(3) {
                let other = random.one_of(&all);
                if other.call == damage.call {
                    damage = damage.and(other, &plan.registers(step));
                }
            }
            if taken || self.tried(&damage).number != 0 {
                self.damaged(&damage);
                return;
            }
        }
    }

    /// Both ends drop, whether they have an open session or not.
    fn drop_all(&mut self, random: &mut Random, habit: Habit, plan: &Plan) {
        for drop in plan.drops() {
            if random.once_in(habit.damaged) {
                self.damage(random, habit, plan, *drop);
            }
            self.right(plan, *drop);
        }
    }

    /// Marks that would stop a dealing are set to 3, and records that would stop a first step are closed.
    pub fn free(&mut self, plan: &Plan) {
        let at = plan.index * plan.layout.size;
        for pool in [ONE, TWO] {
            if !matches!(self.word(pool, at), 0 | 3) {
                self.put(pool, at, &[3]);
            }
        }
        for place in [plan.index, 4 + plan.index] {
            if self.word(RECORDS, place * PLACE + 7) != 0 {
                self.put(RECORDS, place * PLACE + 7, &[0]);
            }
        }
    }

    /// The next call of a session. False where it is over.
    pub fn advance(&mut self, random: &mut Random, habit: Habit, live: &mut Live) -> bool {
        let Some(step) = live.plan.steps().get(live.stage).copied() else { return false };
        if random.once_in(habit.damaged) {
            self.damage(random, habit, &live.plan, step);
        }
        if live.stage > 1 && random.once_in(habit.dropped) {
            self.drop_all(random, habit, &live.plan);
            return false;
        }
        // of a habit without them no random number is drawn for them
        let rarely = |random: &mut Random, n: u64| n != 0 && random.once_in(n);
        if step.takes() != 0 && rarely(random, habit.stray) {
            self.stray(random, &live.plan, step);
        }
        if live.plan.is_system && rarely(random, habit.singular) {
            self.singular(random, &live.plan, step);
        }
        live.stage += 1;
        if step == Step::BlinderFirst && rarely(random, habit.singular) {
            return self.singular_sum(random, &live.plan) == 0;
        }
        self.right(&live.plan, step) == 0
    }

    /// Sessions in the slots of a layout, several at a time, until so many have been begun.
    pub fn sessions(&mut self, random: &mut Random, habit: Habit, count: usize, large: bool, detail: u32) {
        let mostly = random.once_in(2);
        let mut made = Vec::new();
        for _ in 0..count {
            let is_system = mostly ^ random.once_in(4);
            made.push((is_system, if is_system { system_terms(random, large) } else { product_terms(random, large) }));
        }
        let size = made.iter().map(|(s, t)| tape_size(*s, t)).max().unwrap_or(20) + random.from(0, 3) as usize;
        let layout = Layout { size, slots: 3.min(POOL / size), tail: random.from(0, 4) as usize };
        let layout = Layout { tail: layout.tail.min(POOL - size * layout.slots), ..layout };
        self.lay(random, layout);
        let mut lives: Vec<Option<Live>> = (0..layout.slots).map(|_| None).collect();
        let mut waiting = made.into_iter();
        loop {
            let index = random.below(layout.slots as u64) as usize;
            if lives[index].is_none() {
                match waiting.next() {
                    Some((s, t)) => {
                        let pool = random.from(0, 1);
                        let Some(mut plan) = Plan::new(random, s, t, layout, index, pool) else { continue };
                        plan.generous = !random.once_in(3);
                        plan.detail = detail;
                        self.free(&plan);
                        lives[index] = Some(Live { plan, stage: 0 });
                    }
                    None if lives.iter().all(Option::is_none) => return,
                    None => continue,
                }
            }
            if let Some(live) = &mut lives[index] {
                if !self.advance(random, habit, live) {
                    lives[index] = None;
                }
            }
        }
    }
}
