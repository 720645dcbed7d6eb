//! Windows of days: of days that are played, along whole runs, and at the edges of what is taken.

use super::plan::{tape_size, Layout, Plan, Step};
use super::random::Random;
use super::small::with;
use super::writer::Writer;
use crate::machine::*;
use crate::Terms;

const MOST_Q: u32 = 2_147_483_647;
const MOST_DAYS: usize = 2048;
/// A first day or days of a window of this are 2^64 − 1.
const MAX: u32 = u32::MAX;

/// Where the played days' shares are kept among the inputs, left's and right's, behind the words that a step is handed.
const KEPT: [usize; 2] = [100, 200];

pub fn windows(writer: &mut Writer) {
    let random = &mut Random(12);
    for (q, days) in [(41, 40), (MOST_Q, 12)] {
        played(writer, random, q, days);
    }
    long_runs(writer);
    ROWS.iter().for_each(|row| edge(writer, row));
    FLAGS.iter().for_each(|row| flags(writer, row));
}

/// The machine's registers for a call on the run that stands among the inputs.
fn told(q: u32, days: usize, first: usize, w: usize, share: u32) -> Registers {
    with(&[(7, q), (25, 4 * days as u32), (28, share), (29, first as u32), (30, w as u32)])
}

/// The share that an accepted call gives.
fn given(writer: &mut Writer, call: u32, r: &Registers) -> u32 {
    assert_eq!(writer.call(call, r), 0);
    writer.machine.reply.read as u32
}

/// The share of every window of w days: worked out afresh, and moved to from the one before.
fn along(writer: &mut Writer, q: u32, days: usize, w: usize) -> Vec<u32> {
    let mut share = given(writer, WINDOW_SHARE, &told(q, days, 0, w, 0));
    let mut shares = vec![share];
    for first in 0..days - w {
        let moved = given(writer, NEXT_WINDOW, &told(q, days, first, w, share));
        assert_eq!(given(writer, WINDOW_SHARE, &told(q, days, first + 1, w, share)), moved);
        shares.push(moved);
        share = moved;
    }
    // the last window has no next
    assert_eq!(writer.call(NEXT_WINDOW, &told(q, days, days - w, w, share)), 4);
    shares
}

/// Days of two makers: the results of each day's session become their runs, and the shares of every window add to its count.
fn played(writer: &mut Writer, random: &mut Random, q: u32, days: usize) {
    let flags = [(); 2].map(|()| seeded(random.from(1, 60_000), 2, days));
    let layout = Layout { size: tape_size(false, &Terms::product(1, 1, q, 1, 1, 1)), slots: 3, tail: 2 };
    writer.lay(random, layout);
    for day in 0..days {
        let number = day as u32 + 1;
        let plan = Plan::new(random, false, Terms::product(number, number, q, 1, 1, 1), layout, day % 3, 0).expect("seeds");
        writer.free(&plan);
        play(writer, &plan, [flags[0][day], flags[1][day]], day);
    }
    for run in &flags {
        writer.put(INPUT, 0, run);
        assert_eq!(writer.call(FLAGS_FIT, &told(q, days, 0, 0, 0)), 0);
    }
    for w in [1, 7, 30, days].into_iter().filter(|w| *w <= days) {
        let shares = KEPT.map(|kept| {
            writer.say(&[9, INPUT as u32, kept as u32, days as u32, INPUT as u32, 0]);
            along(writer, q, days, w)
        });
        for first in 0..=days - w {
            let count = (first..first + w).filter(|day| flags[0][*day] * flags[1][*day] == 1).count();
            assert_eq!((u64::from(shares[0][first]) + u64::from(shares[1][first])) % u64::from(q), count as u64);
        }
    }
}

/// A day's session, and its two results kept.
fn play(writer: &mut Writer, plan: &Plan, flags: [u32; 2], day: usize) {
    for step in plan.steps() {
        let mut r = plan.registers(*step);
        if matches!(step, Step::RightFirst | Step::Left) {
            r[22] = 0;
            writer.put(INPUT, 0, &[flags[usize::from(*step == Step::RightFirst)]]);
        }
        assert_eq!(writer.made(plan, *step, r), 0);
        if step.result(&plan.terms) != 0 {
            let kept = KEPT[usize::from(*step == Step::RightLast)] + day;
            writer.say(&[9, RESULT as u32, 0, 1, INPUT as u32, kept as u32]);
        }
    }
}

/// The longest runs, with the least q that a window's days may have; at the largest q the longest windows, and the largest sum of all.
fn long_runs(writer: &mut Writer) {
    for (q, w) in [(2, 1), (31, 30), (101, 100), (2049, 2048), (MOST_Q, 2047)] {
        writer.say(&[1, INPUT as u32, 0, MOST_DAYS as u32, 7, q]);
        along(writer, q, MOST_DAYS, w);
    }
    writer.put(INPUT, 0, &[MOST_Q - 1; MOST_DAYS]);
    assert_eq!(along(writer, MOST_Q, MOST_DAYS, MOST_DAYS), [MOST_Q - MOST_DAYS as u32]);
}

/// q, bytes of the run, first day, days of the window, the share handed over, days that are changed, and the numbers that are answered
/// afresh and by a move.
type Row = (u32, u32, u32, u32, u32, &'static [(usize, u32)], [u32; 2]);

/// Both calls, on residues modulo q but for the days that are changed.
fn edge(writer: &mut Writer, row: &Row) {
    let (q, bytes, first, w, share, changed, numbers) = *row;
    writer.say(&[1, INPUT as u32, 0, 2200, 5, q.max(2)]);
    changed.iter().for_each(|(day, value)| writer.put(INPUT, *day, &[*value]));
    let r = with(&[(7, q), (25, bytes), (28, share), (29, first), (30, w)]);
    assert_eq!([WINDOW_SHARE, NEXT_WINDOW].map(|call| writer.call(call, &r)), numbers, "{row:?}");
}

/// Runs of 12 days, where nothing else is said.
const ROWS: &[Row] = &[
    // windows at both ends of the run, and of all its days; w at q
    (11, 48, 0, 1, 0, &[], [0, 0]),
    (11, 48, 10, 1, 3, &[], [0, 0]),
    (11, 48, 11, 1, 3, &[], [0, 4]),
    (11, 48, 12, 1, 3, &[], [4, 4]),
    (11, 48, 1, 10, 3, &[], [0, 0]),
    (11, 48, 2, 10, 3, &[], [0, 4]),
    (11, 48, 3, 10, 3, &[], [4, 4]),
    (12, 48, 0, 11, 3, &[], [0, 0]),
    (13, 48, 0, 12, 3, &[], [0, 4]),
    (13, 48, 1, 12, 3, &[], [4, 4]),
    (14, 48, 0, 13, 3, &[], [4, 4]),
    (11, 48, 0, 11, 3, &[], [4, 4]),
    (11, 48, 0, 12, 3, &[], [4, 4]),
    (11, 48, 0, 0, 3, &[], [4, 4]),
    (11, 48, 12, 0, 3, &[], [4, 4]),
    (2, 48, 5, 1, 1, &[], [0, 0]),
    (2, 48, 5, 2, 1, &[], [4, 4]),
    (2, 4, 0, 1, 1, &[], [0, 4]),
    (2, 8, 0, 1, 1, &[], [0, 0]),
    (MOST_Q, 48, 0, 11, 3, &[], [0, 0]),
    (MOST_Q, 48, 0, 12, 3, &[], [0, 4]),
    // runs of no day, of the most, and of more; bytes that are not whole words
    (11, 0, 0, 1, 3, &[], [4, 4]),
    (11, 0, 0, 0, 3, &[], [4, 4]),
    (11, 8192, 2037, 10, 3, &[], [0, 0]),
    (11, 8192, 2038, 10, 3, &[], [0, 4]),
    (11, 8192, 2039, 10, 3, &[], [4, 4]),
    (2050, 8192, 0, 2049, 3, &[], [4, 4]),
    (11, 8196, 0, 1, 3, &[], [4, 4]),
    (11, 8196, 2047, 1, 3, &[], [4, 4]),
    (2050, 8196, 0, 2049, 3, &[], [4, 4]),
    (11, 1, 0, 1, 3, &[], [4, 4]),
    (11, 3, 0, 1, 3, &[], [4, 4]),
    (11, 5, 0, 1, 3, &[], [4, 4]),
    (11, 45, 0, 2, 3, &[], [4, 4]),
    (11, 46, 0, 2, 3, &[], [4, 4]),
    (11, 47, 0, 2, 3, &[], [4, 4]),
    (11, 49, 0, 2, 3, &[], [4, 4]),
    (11, 8195, 0, 2, 3, &[], [4, 4]),
    // numbers whose sum would wrap around to a day of the run, or just not
    (11, 48, MAX, 1, 3, &[], [4, 4]),
    (11, 48, MAX, 2, 3, &[], [4, 4]),
    (11, 48, MAX, 10, 3, &[], [4, 4]),
    (11, 48, MAX - 1, 1, 3, &[], [4, 4]),
    (11, 48, MAX - 1, 2, 3, &[], [4, 4]),
    (11, 48, MAX - 1, 3, 3, &[], [4, 4]),
    (11, 48, MAX - 9, 10, 3, &[], [4, 4]),
    (11, 48, MAX - 8, 10, 3, &[], [4, 4]),
    (11, 48, 1 << 31, 1, 3, &[], [4, 4]),
    (11, 48, (1 << 31) - 1, 1, 3, &[], [4, 4]),
    (11, 48, 0, MAX, 3, &[], [4, 4]),
    (11, 48, 1, MAX, 3, &[], [4, 4]),
    (11, 48, 2, MAX, 3, &[], [4, 4]),
    (MOST_Q, 48, 5, MAX - 2, 3, &[], [4, 4]),
    (MOST_Q, 48, 5, 1 << 31, 3, &[], [4, 4]),
    (MOST_Q, 48, 0, MOST_Q, 3, &[], [4, 4]),
    (MOST_Q, 48, MAX, MAX, 3, &[], [4, 4]),
    (MOST_Q, 0, MAX, MAX, 3, &[], [4, 4]),
    // days that are no residues: before the window, its first, in its middle, its last, the new one, behind that, behind the run
    (11, 48, 2, 5, 3, &[(1, 11)], [0, 0]),
    (11, 48, 2, 5, 3, &[(2, 11)], [8, 8]),
    (11, 48, 2, 5, 3, &[(3, MAX)], [8, 0]),
    (11, 48, 2, 5, 3, &[(4, 11)], [8, 0]),
    (11, 48, 2, 5, 3, &[(6, 11)], [8, 0]),
    (11, 48, 2, 5, 3, &[(7, 11)], [0, 8]),
    (11, 48, 2, 5, 3, &[(8, MAX)], [0, 0]),
    (11, 48, 1, 10, 3, &[(12, MAX)], [0, 0]),
    (11, 48, 2, 5, 3, &[(2, 10), (7, 10)], [0, 0]),
    (11, 48, 2, 5, 3, &[(2, 1 << 24)], [8, 8]),
    (11, 48, 2, 5, 3, &[(7, 256)], [0, 8]),
    (11, 48, 2, 1, 3, &[(2, 1 << 31)], [8, 8]),
    (2, 48, 2, 1, 1, &[(2, 2)], [8, 8]),
    (2, 48, 2, 1, 1, &[(3, 2)], [0, 8]),
    (MOST_Q, 48, 2, 5, 3, &[(2, MOST_Q - 1), (7, MOST_Q - 1)], [0, 0]),
    (MOST_Q, 48, 2, 5, 3, &[(2, MOST_Q)], [8, 8]),
    (MOST_Q, 48, 2, 5, 3, &[(7, MOST_Q)], [0, 8]),
    // shares handed over: the largest residue, and more
    (11, 48, 2, 5, 10, &[], [0, 0]),
    (11, 48, 2, 5, 11, &[], [0, 8]),
    (11, 48, 2, 5, MAX, &[], [0, 8]),
    (2, 48, 2, 1, 2, &[], [0, 8]),
    (MOST_Q, 48, 2, 5, MOST_Q - 1, &[(2, 0), (7, MOST_Q - 1)], [0, 0]),
    (MOST_Q, 48, 2, 5, 0, &[(2, MOST_Q - 1), (7, 0)], [0, 0]),
    (MOST_Q, 48, 2, 5, MOST_Q, &[], [0, 8]),
    // moduli out of range; with 0 and 1 no window fits
    (1 << 31, 48, 2, 5, 3, &[], [2, 2]),
    (MAX, 48, 2, 5, 3, &[], [2, 2]),
    (0, 48, 2, 5, 0, &[], [2, 2]),
    (1, 48, 2, 1, 0, &[], [2, 2]),
    // the lowest counts: 2 with 4
    (1 << 31, 48, 2, 0, 3, &[], [2, 2]),
    (1 << 31, 48, MAX, 5, 3, &[], [2, 2]),
    (1 << 31, 47, 2, 5, 3, &[], [2, 2]),
    (MAX, 0, 0, 1, 3, &[], [2, 2]),
    (0, 8196, 0, 1, 0, &[], [2, 2]),
    // 2 with 8
    (1 << 31, 48, 2, 5, 3, &[(2, 1 << 31)], [2, 2]),
    (1 << 31, 48, 2, 5, 1 << 31, &[(4, MAX), (7, MAX)], [2, 2]),
    // 4 with 8
    (11, 48, 2, 11, 3, &[(2, 11)], [4, 4]),
    (11, 48, 8, 5, 11, &[(9, 11)], [4, 4]),
    (11, 47, 2, 5, 11, &[(2, 11), (7, 11)], [4, 4]),
    (11, 8196, 2, 5, 11, &[(2, 11), (7, 11)], [4, 4]),
    (11, 48, 7, 5, 11, &[(7, 11)], [8, 4]),
    // all three
    (1 << 31, 47, 2, 5, MAX, &[(2, MAX), (7, MAX)], [2, 2]),
    (1, 48, 2, 5, 1, &[(2, 1), (7, 1)], [2, 2]),
    (0, 0, 0, 0, 0, &[], [2, 2]),
];

/// Bytes of the run, flags that are changed, and the number that is answered.
type Flags = (u32, &'static [(usize, u32)], u32);

fn flags(writer: &mut Writer, row: &Flags) {
    let (bytes, changed, number) = *row;
    writer.say(&[1, INPUT as u32, 0, 2200, 5, 2]);
    changed.iter().for_each(|(day, value)| writer.put(INPUT, *day, &[*value]));
    assert_eq!(writer.call(FLAGS_FIT, &with(&[(25, bytes)])), number, "{row:?}");
}

const FLAGS: &[Flags] = &[
    (4, &[(0, 0)], 0),
    (4, &[(0, 1)], 0),
    (4, &[(0, 2)], 8),
    (4, &[(1, 2)], 0),
    (8192, &[], 0),
    (8192, &[(2048, 2)], 0),
    (8192, &[(0, 2)], 8),
    (8192, &[(1000, MAX)], 8),
    (8192, &[(2047, 2)], 8),
    (48, &[(5, 256)], 8),
    (48, &[(5, 1 << 16)], 8),
    (48, &[(5, 1 << 24)], 8),
    (48, &[(11, 257)], 8),
    // the run's length, also with such a flag
    (0, &[], 4),
    (8196, &[], 4),
    (8196, &[(0, 2)], 4),
    (1, &[], 4),
    (2, &[], 4),
    (3, &[(0, 2)], 4),
    (49, &[], 4),
    (51, &[(5, 2)], 4),
    (8191, &[], 4),
    (8193, &[], 4),
];
