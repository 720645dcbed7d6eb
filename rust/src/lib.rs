//! Two parties work out a common answer from private records, and neither hands its records to the other: a product of two private
//! matrices, of which each end gets a share, or the solution of a joint linear system or the determinant of a joint table, which one end
//! learns.
//!
//! The work is done by a proved archive that this crate links. What it needs beforehand are tapes: a third party, the dealer, makes them by
//! [`deal`] (or the program `yuthsaok-deal`) and hands each end its pool of halves. It takes no part in a session. Of the repository's pages
//! `docs/EMBEDDING.md` has sizes, raw words and refusals, `docs/HOSTS.md` a host's duties (what is persisted before a line is sent above all),
//! and `docs/RULES.md` every rule.
//!
//! | | |
//! |---|---|
//! | [`Shape`], [`Terms`] | what is worked out, and every size that follows |
//! | [`Pool`], [`Tape`], [`deal`] | tapes and the dealing |
//! | [`Session`], [`Step`] | the steps of the four ends |
//! | [`Head`], [`MOST_LINE`] | lines, before a step takes them |
//! | [`Refusal`] | why a call is refused |
//! | [`random`] | raw words for dealings and first steps |
//! | [`window_share`], [`next_window`], [`flags_fit`] | windows of days, from a product a day |
//! | [`is_prime`], [`has_inverse`], [`to_residue`], [`to_score`], [`version`] | before a session |
//! | [`slices`] | the archive's entries on numbers and slices |
//! | [`sys`] | the archive's entries as they are linked |
//!
//! # A product
//!
//! Left has X (3, 5) and right has Y (2, 6), modulo 7. The raw words are made up here, so that the lines are known; an app takes them from
//! [`random::os_words`].
//!
//! ```
//! use yuthsaok::{deal, Pool, Refusal, Session, SessionNumber, Shape, Slot, TapeNumber, Terms};
//!
//! let shape = Shape::Product { q: 7, m: 1, k: 2, p: 1 };
//! let mut left = Pool::new(shape.slot_words(), 1);
//! let mut right = Pool::new(shape.slot_words(), 1);
//! deal(&mut left, &mut right, Slot(0), TapeNumber(4), shape, &[1, 4, 6, 3, 2])?;
//!
//! let terms = Terms { session: SessionNumber(9), tape: TapeNumber(4), shape };
//! let (mut session, step) = Session::right(&mut right, Slot(0), terms, &[2, 6])?;
//! assert_eq!(step.line, b"1,9,4,7,1,2,1,3,3\n");
//!
//! let (_, answer) = Session::left(&mut left, Slot(0), terms, &[3, 5], &[5], &step.line)?;
//! assert_eq!(answer.line, b"2,9,4,7,1,2,1,4,2,3\n");
//!
//! let last = session.next(&mut right, Slot(0), &answer.line)?;
//! assert_eq!((answer.result[0], last.result[0]), (5, 3));
//! assert_eq!((answer.result[0] + last.result[0]) % 7, (3 * 2 + 5 * 6) % 7);
//! # Ok::<(), Refusal>(())
//! ```
//!
//! # A system
//!
//! The solver has L 2 and x 3, the blinder has M 1 and y 1, modulo 5. The blinder learns the z with (2 + 1) z = 3 + 1.
//!
//! ```
//! use yuthsaok::{deal, Pool, Refusal, Session, SessionNumber, Shape, Slot, TapeNumber, Terms};
//!
//! let shape = Shape::System { q: 5, n: 1 };
//! let mut blinder = Pool::new(shape.slot_words(), 1);
//! let mut solver = Pool::new(shape.slot_words(), 1);
//! deal(&mut blinder, &mut solver, Slot(0), TapeNumber(4), shape, &[1, 4, 2, 0, 3, 3, 2, 1])?;
//!
//! let terms = Terms { session: SessionNumber(9), tape: TapeNumber(4), shape };
//! let (mut solving, first) = Session::solver(&mut solver, Slot(0), terms, &[2], &[3])?;
//! let (mut blinding, second) = Session::blinder(&mut blinder, Slot(0), terms, &[1], &[1], &[2, 1, 2], &first.line)?;
//! let third = solving.next(&mut solver, Slot(0), &second.line)?;
//! let fourth = blinding.next(&mut blinder, Slot(0), &third.line)?;
//! let fifth = solving.next(&mut solver, Slot(0), &fourth.line)?;
//! let last = blinding.next(&mut blinder, Slot(0), &fifth.line)?;
//! assert_eq!(last.result, [3]);
//! # Ok::<(), Refusal>(())
//! ```
//!
//! # A determinant
//!
//! The solver has L and the blinder has M, 2 by 2 and modulo 7, and there are no vectors. The blinder learns the determinant of L + M, here
//! 4 × 2 − 2 × 5.
//!
//! ```
//! use yuthsaok::{deal, Pool, Refusal, Session, SessionNumber, Shape, Slot, TapeNumber, Terms};
//!
//! let shape = Shape::Determinant { q: 7, n: 2 };
//! let mut blinder = Pool::new(shape.slot_words(), 1);
//! let mut solver = Pool::new(shape.slot_words(), 1);
//! deal(&mut blinder, &mut solver, Slot(0), TapeNumber(5), shape, &(1..25).collect::<Vec<u32>>())?;
//!
//! let terms = Terms { session: SessionNumber(10), tape: TapeNumber(5), shape };
//! let (mut solving, first) = Session::solver(&mut solver, Slot(0), terms, &[1, 2, 0, 1], &[])?;
//! let words = [1, 2, 3, 5, 6, 1, 2, 3];
//! let (mut blinding, second) = Session::blinder(&mut blinder, Slot(0), terms, &[3, 0, 5, 1], &[], &words, &first.line)?;
//! let third = solving.next(&mut solver, Slot(0), &second.line)?;
//! let fourth = blinding.next(&mut blinder, Slot(0), &third.line)?;
//! let sixth = solving.next(&mut solver, Slot(0), &fourth.line)?;
//! assert_eq!(sixth.line, b"6,10,5,7,2,2,2,3\n");
//! let last = blinding.next(&mut blinder, Slot(0), &sixth.line)?;
//! assert_eq!(last.result, [5]);
//! # Ok::<(), Refusal>(())
//! ```

#![deny(missing_docs)]
#![deny(unsafe_code)]

mod line;
mod names;
mod pool;
pub mod random;
mod refusal;
mod session;
mod shape;
#[allow(unsafe_code)]
pub mod slices;
mod small;
#[allow(unsafe_code)]
pub mod sys;
mod window;
mod words;

pub use line::{Head, MOST_LINE};
pub use names::{End, SessionNumber, Slot, TapeNumber};
pub use pool::{deal, Pool, Status, Tape};
pub use refusal::Refusal;
pub use session::{Session, Step};
pub use shape::{Shape, Terms};
pub use small::{has_inverse, is_prime, to_residue, to_score, version, Version, VERSION};
pub use window::{flags_fit, next_window, window_share, MOST_DAYS};
