//! The calls of a session that keeps to the rules.

use super::random::Random;
use crate::entries::RECORD;
use crate::machine::*;
use crate::matrix::Matrix;
use crate::message::count;
use crate::pool::{End, HEADER};
use crate::system::scratch_size;
use crate::words::draw;
use crate::Terms;

/// What the entries stand for.
#[derive(Clone, Copy, Debug, PartialEq, Eq)]
pub enum Step {
    Deal,
    RightFirst,
    Left,
    RightLast,
    RightDrop,
    SolverFirst,
    BlinderFirst,
    SolverSecond,
    BlinderSecond,
    SolverLast,
    BlinderLast,
    SolverDeterminant,
    BlinderDeterminant,
    SolverDrop,
    BlinderDrop,
}

const PRODUCT: [Step; 4] = [Step::Deal, Step::RightFirst, Step::Left, Step::RightLast];
const SYSTEM: [Step; 7] =
    [Step::Deal, Step::SolverFirst, Step::BlinderFirst, Step::SolverSecond, Step::BlinderSecond, Step::SolverLast, Step::BlinderLast];
const DETERMINANT: [Step; 7] = [
    Step::Deal,
    Step::SolverFirst,
    Step::BlinderFirst,
    Step::SolverSecond,
    Step::BlinderSecond,
    Step::SolverDeterminant,
    Step::BlinderDeterminant,
];

impl Step {
    /// The number of the call.
    pub fn call(self) -> u32 {
        match self {
            Step::Deal => DEAL,
            Step::RightFirst | Step::Left | Step::SolverFirst | Step::BlinderFirst => FIRST,
            Step::RightDrop | Step::SolverDrop | Step::BlinderDrop => DROP,
            _ => NEXT,
        }
    }

    /// A dealing has none.
    pub fn end(self) -> Option<End> {
        match self {
            Step::Deal => None,
            Step::Left => Some(End::Left),
            Step::RightFirst | Step::RightLast | Step::RightDrop => Some(End::Right),
            Step::SolverFirst | Step::SolverSecond | Step::SolverLast | Step::SolverDeterminant | Step::SolverDrop => Some(End::Solver),
            _ => Some(End::Blinder),
        }
    }

    /// The kind of the message that is taken, 0 for none.
    pub fn takes(self) -> u32 {
        match self {
            Step::Left | Step::BlinderFirst => 1,
            Step::RightLast | Step::SolverSecond => 2,
            Step::BlinderSecond => 3,
            Step::SolverLast | Step::SolverDeterminant => 4,
            Step::BlinderLast => 5,
            Step::BlinderDeterminant => 6,
            _ => 0,
        }
    }

    pub fn sends(self) -> bool {
        !matches!(self, Step::Deal | Step::RightLast | Step::BlinderLast | Step::BlinderDeterminant) && self.call() != DROP
    }

    /// The words of the result.
    pub fn result(self, t: &Terms) -> usize {
        match self {
            Step::Left | Step::RightLast => t.rows() * t.columns(),
            Step::BlinderLast => t.rows(),
            Step::BlinderDeterminant => 1,
            _ => 0,
        }
    }

    /// The words of the scratch.
    pub fn scratch(self, t: &Terms) -> usize {
        if self.end() == Some(End::Blinder) {
            scratch_size(t)
        } else {
            0
        }
    }

    pub fn draws(self) -> bool {
        matches!(self, Step::Deal | Step::Left | Step::BlinderFirst)
    }
}

/// Slots of one size in both pools, which begin at 0.
#[derive(Clone, Copy)]
pub struct Layout {
    pub size: usize,
    pub slots: usize,
    /// Words past the last slot that are lent.
    pub tail: usize,
}

impl Layout {
    /// The words of a pool.
    pub fn words(&self) -> usize {
        self.size * self.slots + self.tail
    }
}

#[derive(Clone)]
pub struct Plan {
    /// A system, or a determinant, as the terms tell.
    pub is_system: bool,
    pub terms: Terms,
    pub layout: Layout,
    /// The slot, and the places of its records, its scratch and its messages.
    pub index: usize,
    /// The pool of the left or the blinder's half.
    pub pool: u32,
    /// Slices that are written have more room than they need, and those without use are not empty.
    pub generous: bool,
    pub detail: u32,
    /// Seeds and counts of raw words: the dealer's; left's or the blinder's.
    pub dealer: (u32, u32),
    pub coins: (u32, u32),
    /// Seeds of the inputs: of right or the solver, of left or the blinder.
    pub inputs: [(u32, u32); 2],
}

/// The words of the larger half.
pub fn tape_size(is_system: bool, t: &Terms) -> usize {
    let ends = if is_system { [End::Blinder, End::Solver] } else { [End::Left, End::Right] };
    HEADER + ends[0].body(t).max(ends[1].body(t))
}

/// A seed, and how many of its raw words give n residues.
fn words_for(random: &mut Random, q: u32, n: usize, fits: impl Fn(&[u32]) -> bool) -> Option<(u32, u32)> {
    (0..400).find_map(|_| {
        let seed = random.from(1, 60_000);
        let (residues, read) = draw(q, n, &seeded(seed, 0, 9000))?;
        fits(&residues).then_some((seed, read as u32))
    })
}

pub fn is_regular(q: u32, n: usize, words: &[u32]) -> bool {
    Matrix::new(q, n, n, words).is_regular()
}

/// A seed whose n by n matrix has an inverse, or has none.
pub fn matrix_seed(random: &mut Random, q: u32, n: usize, regular: bool) -> Option<u32> {
    (0..400).map(|_| random.from(1, 60_000)).find(|seed| is_regular(q, n, &seeded(*seed, q, n * n)) == regular)
}

impl Plan {
    /// A plan with seeds that make every call taken; none where there are none.
    pub fn new(random: &mut Random, is_system: bool, terms: Terms, layout: Layout, index: usize, pool: u32) -> Option<Plan> {
        let (m, k, p, q) = (terms.rows(), terms.inner(), terms.columns(), terms.q);
        let masks = m * k + k * p + m * p;
        let (dealer, coins, inputs);
        if is_system {
            dealer = words_for(random, q, masks + 3 * m * m, |w| is_regular(q, m, &w[masks..masks + m * m]))?;
            coins = words_for(random, q, scratch_size(&terms), |w| is_regular(q, m, &w[..m * m]))?;
            let mut input = || Some((matrix_seed(random, q, m, true)?, random.from(1, 60_000)));
            inputs = [input()?, input()?];
        } else {
            dealer = words_for(random, q, masks, |_| true)?;
            coins = words_for(random, q, m * p, |_| true)?;
            inputs = [(random.from(1, 60_000), 0), (random.from(1, 60_000), 0)];
        }
        Some(Plan { is_system, terms, layout, index, pool, generous: true, detail: 0, dealer, coins, inputs })
    }

    pub fn is_determinant(&self) -> bool {
        self.is_system && self.terms.is_determinant()
    }

    /// Whether no step is refused: a system's sum has an inverse, and a determinant's may be any.
    pub fn is_answered(&self) -> bool {
        let (q, n) = (self.terms.q, self.terms.rows());
        if !self.is_system || self.is_determinant() {
            return true;
        }
        let [l, m] = self.inputs.map(|(seed, _)| Matrix::new(q, n, n, &seeded(seed, q, n * n)));
        l.plus(&m).is_regular()
    }

    pub fn steps(&self) -> &'static [Step] {
        match self.is_system {
            false => &PRODUCT,
            true if self.is_determinant() => &DETERMINANT,
            true => &SYSTEM,
        }
    }

    pub fn drops(&self) -> &'static [Step] {
        if self.is_system {
            &[Step::SolverDrop, Step::BlinderDrop]
        } else {
            &[Step::RightDrop]
        }
    }

    /// The registers for a step, with all room for its line.
    pub fn registers(&self, step: Step) -> Registers {
        let (t, at) = (&self.terms, self.index as u32);
        let room = |needed: usize, most: usize| if self.generous { most as u32 } else { needed as u32 };
        let lent = 4 * self.layout.words() as u32;
        let mut r = [0; REGISTERS];
        r[0] = if self.is_first(step) { self.pool } else { 1 - self.pool };
        r[1..5].copy_from_slice(&[lent, lent, self.layout.size as u32, at]);
        r[5..11].copy_from_slice(&[t.session, t.tape, t.q, t.m, t.k, t.p]);
        r[11] = step.end().map_or(u32::from(self.is_system), End::number);
        r[12..14].copy_from_slice(&[RECORD as u32, self.place(step) as u32]);
        r[14..16].copy_from_slice(&[600 * at, room(4 * step.scratch(t), 4 * SCRATCH)]);
        r[16..18].copy_from_slice(&[at, if self.generous || step.takes() != 0 { u32::MAX } else { 0 }]);
        r[18..20].copy_from_slice(&[at, room(if step.sends() { LINE_ROOM } else { 0 }, LINE_ROOM)]);
        r[20] = room(4 * step.result(t), 4 * RESULTS);
        r[21] = t.q;
        r[22..26].copy_from_slice(&self.input(step));
        let (seed, words) = match step {
            Step::Deal => self.dealer,
            Step::Left | Step::BlinderFirst => self.coins,
            _ => (0, 0),
        };
        r[26..28].copy_from_slice(&[seed, 4 * words]);
        r[31] = self.detail;
        r
    }

    /// Seed and words of the matrix, seed of the vector, bytes of both.
    fn input(&self, step: Step) -> [u32; 4] {
        let t = &self.terms;
        let (input, one, two) = match step {
            Step::RightFirst => (self.inputs[0], t.k * t.p, 0),
            Step::Left => (self.inputs[1], t.m * t.k, 0),
            Step::SolverFirst => (self.inputs[0], t.m * t.m, t.m * (t.p - t.m)),
            Step::BlinderFirst => (self.inputs[1], t.m * t.m, t.m * (t.p - t.m)),
            _ => ((0, 0), 0, 0),
        };
        [input.0, one, input.1, 4 * (one + two)]
    }

    fn is_first(&self, step: Step) -> bool {
        !matches!(step.end(), Some(End::Right | End::Solver))
    }

    /// The place of a step's record.
    pub fn place(&self, step: Step) -> usize {
        if self.is_first(step) {
            4 + self.index
        } else {
            self.index
        }
    }

    /// Where the slot that a step works on begins, and in which array.
    pub fn slot(&self, step: Step) -> (usize, usize) {
        (self.registers(step)[0] as usize, self.index * self.layout.size)
    }

    /// How many residues the message has that a step takes.
    pub fn taken(&self, step: Step) -> usize {
        match step.takes() {
            0 => 0,
            kind => count(kind, &self.terms),
        }
    }
}
