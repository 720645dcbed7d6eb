//! Windows of days (RULES 12): how many days of a window both ends marked, from one product session a day.

use crate::refusal::{done, Refusal};
use crate::slices::{self, bytes_of};
use crate::sys::Share;

/// The most days of a run of flags or of day shares.
pub const MOST_DAYS: usize = 2048;

fn given(answer: Share) -> Result<u32, Refusal> {
    done(answer.number).map(|()| answer.share)
}

/// An end's share of the window of w days from day `first` on, counted from 0: the sum of its day shares modulo q.
///
/// Each day is a session of [`Shape::Product`](crate::Shape::Product) with m, k and p 1 and a tape of its own, all with one q; an end's
/// results are its day shares, a run of 1 to [`MOST_DAYS`] days. The two ends' shares of one window add modulo q to the number of its days
/// that both flags mark, where both runs have the same days in the same places; a sum above w shows that they have not.
///
/// Refused: [`Refusal::Modulus`] for q; [`Refusal::Size`] for a run of another length, a window that is not in the run, a w of 0, and one
/// that is not below q, with which the number could wrap around; [`Refusal::Residue`] for a day share in the window that is not below q.
/// Days outside the window are not judged.
///
/// ```
/// use yuthsaok::{window_share, Refusal};
///
/// // modulo 7 these days are 1, 0, 1 and 1
/// let (left, right) = ([5, 2, 6, 0], [3, 5, 2, 1]);
/// let (one, two) = (window_share(7, &left, 1, 3)?, window_share(7, &right, 1, 3)?);
/// assert_eq!((one, two), (1, 1));
/// assert_eq!((one + two) % 7, 2);
/// assert_eq!(window_share(7, &left, 2, 3), Err(Refusal::Size));
/// # Ok::<(), Refusal>(())
/// ```
pub fn window_share(q: u32, shares: &[u32], first: usize, w: usize) -> Result<u32, Refusal> {
    given(slices::window_share(q, bytes_of(shares), first, w))
}

/// An end's share of the window of w days from day `first` + 1 on, where `share` is its share of the window before, from `first` on. Handed
/// what [`window_share`] gave of that one in this run it gives what that gives of the next, refusals too. Two days are looked at, whatever w
/// is: the oldest, `first`, and the new one, `first` + w; so the run has w + 1 days or more. Whether the share is that window's own cannot
/// be seen. Mornings that were missed are made up by as many moves, or by one sum.
///
/// Refused: as [`window_share`], of the window that is moved to; [`Refusal::Residue`] where `share` or one of the two days is not below q.
/// The days between are not judged.
///
/// ```
/// use yuthsaok::{next_window, window_share, Refusal};
///
/// let left = [5, 2, 6, 0];
/// let share = window_share(7, &left, 0, 3)?;
/// assert_eq!(share, 6);
/// assert_eq!(next_window(7, &left, 0, 3, share), window_share(7, &left, 1, 3));
/// // day 4 is not in the run yet
/// assert_eq!(next_window(7, &left, 1, 3, 1), Err(Refusal::Size));
/// # Ok::<(), Refusal>(())
/// ```
pub fn next_window(q: u32, shares: &[u32], first: usize, w: usize, share: u32) -> Result<u32, Refusal> {
    given(slices::next_window(q, bytes_of(shares), first, w, share))
}

/// Whether a run of flags is one that days can be counted with: 1 to [`MOST_DAYS`] days, else [`Refusal::Size`], a word each, and no flag
/// above 1, else [`Refusal::Residue`]. A session takes any residue as its input, so an end asks this of its own flags before it plays them;
/// of the other end's it says nothing.
///
/// ```
/// use yuthsaok::{flags_fit, Refusal};
///
/// assert_eq!(flags_fit(&[1, 0, 0, 1]), Ok(()));
/// assert_eq!(flags_fit(&[1, 0, 2, 1]), Err(Refusal::Residue));
/// assert_eq!(flags_fit(&[]), Err(Refusal::Size));
/// ```
pub fn flags_fit(flags: &[u32]) -> Result<(), Refusal> {
    done(slices::flags_fit(bytes_of(flags)))
}
