//! Windows of days (RULES 12), on runs of words.

use crate::faults::{Faults, RESIDUE, SIZE};

/// The most days of a run.
const MOST_DAYS: usize = 2048;

impl Faults {
    fn days(&mut self, run: &[u32]) {
        self.unless((1..=MOST_DAYS).contains(&run.len()), SIZE);
    }

    /// The window of w days from a day on, in numbers so wide that no sum wraps around.
    fn window(&mut self, q: u32, run: &[u32], first: u128, w: usize) {
        self.modulus(q);
        self.days(run);
        self.unless((1..=run.len()).contains(&w) && (w as u128) < u128::from(q), SIZE);
        self.unless(first + w as u128 <= run.len() as u128, SIZE);
    }

    /// The residue, which is only worked out where nothing was found; else the refusal.
    fn or(&self, residue: impl Fn() -> u64) -> Result<u32, u32> {
        match self.lowest() {
            0 => Ok(residue() as u32),
            number => Err(number),
        }
    }
}

/// The share of the window of w days from some day on, or the refusal.
pub fn window_share(q: u32, run: &[u32], first: usize, w: usize) -> Result<u32, u32> {
    let mut faults = Faults::new();
    faults.window(q, run, first as u128, w);
    let days: Vec<u32> = run.iter().skip(first).take(w).copied().collect();
    faults.residues(q, &days);
    faults.or(|| days.iter().map(|day| u64::from(*day)).sum::<u64>() % u64::from(q))
}

/// The share of the next window, where that of the window from some day on is handed over, or the refusal.
pub fn next_window(q: u32, run: &[u32], first: usize, w: usize, share: u32) -> Result<u32, u32> {
    let mut faults = Faults::new();
    faults.window(q, run, first as u128 + 1, w);
    // of a window that does not fit there may be no such days, and it is refused by a lower number
    let day = |at: usize| run.get(at).copied().unwrap_or(0);
    let (oldest, new) = (day(first), day(first.saturating_add(w)));
    faults.residues(q, &[share, oldest, new]);
    faults.or(|| (u64::from(share) + u64::from(new) + u64::from(q) - u64::from(oldest)) % u64::from(q))
}

/// The refusal of a run of flags, or 0.
pub fn flags_fit(run: &[u32]) -> u32 {
    let mut faults = Faults::new();
    faults.days(run);
    faults.unless(run.iter().all(|flag| *flag < 2), RESIDUE);
    faults.lowest()
}
