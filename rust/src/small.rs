//! Tests and conversions before a session, and the version.

use std::fmt;

use crate::refusal::{done, Refusal};
use crate::slices;
use crate::words;

/// Whether a number is prime, as the modulus of a system or a determinant must be.
///
/// ```
/// assert!(yuthsaok::is_prime(2_147_483_647));
/// assert!(!yuthsaok::is_prime(1));
/// ```
pub fn is_prime(n: u32) -> bool {
    slices::is_prime(n) == 1
}

/// Whether an n by n matrix of residues has an inverse modulo q, as the matrices of a system and of a determinant must:
/// [`Refusal::Singular`] where it has none, and a lower refusal where it is no such matrix.
///
/// ```
/// use yuthsaok::{has_inverse, Refusal};
///
/// assert_eq!(has_inverse(5, 2, &[1, 2, 3, 4]), Ok(()));
/// assert_eq!(has_inverse(5, 2, &[1, 2, 2, 4]), Err(Refusal::Singular));
/// ```
pub fn has_inverse(q: u32, n: u32, matrix: &[u32]) -> Result<(), Refusal> {
    done(slices::has_inverse(q, n, &words::to_bytes(matrix)))
}

/// The residue of a signed score, which is at most q/2 and at least −(q − 1)/2.
///
/// ```
/// use yuthsaok::{to_residue, to_score, Refusal};
///
/// assert_eq!(to_residue(15, -2), Ok(13));
/// assert_eq!(to_score(15, 13), Ok(-2));
/// assert_eq!(to_residue(15, 8), Err(Refusal::Residue));
/// ```
pub fn to_residue(q: u32, score: i32) -> Result<u32, Refusal> {
    let answer = slices::to_residue(q, score);
    done(answer.number).map(|()| answer.residue)
}

/// The signed score of a residue: what [`to_residue`] took.
pub fn to_score(q: u32, residue: u32) -> Result<i32, Refusal> {
    let answer = slices::to_score(q, residue);
    done(answer.number).map(|()| answer.score)
}

/// The version of this crate, which the archive's must be: an app compares the two when it starts.
///
/// ```
/// assert_eq!(yuthsaok::version(), yuthsaok::VERSION);
/// ```
pub const VERSION: Version = Version {
    major: decimal(env!("CARGO_PKG_VERSION_MAJOR")),
    minor: decimal(env!("CARGO_PKG_VERSION_MINOR")),
    patch: decimal(env!("CARGO_PKG_VERSION_PATCH")),
};

const fn decimal(text: &str) -> u32 {
    match u32::from_str_radix(text, 10) {
        Ok(number) => number,
        Err(_) => panic!("cargo's version has numbers"),
    }
}

/// The version of the archive that is linked.
///
/// ```
/// assert_eq!(yuthsaok::version().to_string(), yuthsaok::VERSION.to_string());
/// ```
pub fn version() -> Version {
    let number = slices::version();
    Version { major: number / 10_000, minor: number / 100 % 100, patch: number % 100 }
}

/// The numbers of a version.
#[derive(Clone, Copy, Debug, PartialEq, Eq, PartialOrd, Ord, Hash)]
pub struct Version {
    /// Changes with what makers must follow.
    pub major: u32,
    /// Changes with what is added.
    pub minor: u32,
    /// Changes with what is mended.
    pub patch: u32,
}

impl fmt::Display for Version {
    fn fmt(&self, f: &mut fmt::Formatter) -> fmt::Result {
        write!(f, "{}.{}.{}", self.major, self.minor, self.patch)
    }
}
