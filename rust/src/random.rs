//! Raw words from the operating system.

use std::io;

use crate::slices;
use crate::words;

/// So many words from the operating system's random source.
///
/// ```
/// let words = yuthsaok::random::os_words(16)?;
/// assert_eq!(words.len(), 16);
/// # Ok::<(), std::io::Error>(())
/// ```
pub fn os_words(count: usize) -> io::Result<Vec<u32>> {
    let mut bytes = vec![0; count.checked_mul(4).ok_or(io::ErrorKind::InvalidInput)?];
    let mut filled = 0;
    while filled < bytes.len() {
        match usize::try_from(slices::fill_random(&mut bytes[filled..])) {
            Ok(more) => filled += more,
            Err(_) => {
                let error = io::Error::last_os_error();
                if error.kind() != io::ErrorKind::Interrupted {
                    return Err(error);
                }
            }
        }
    }
    Ok(words::from_bytes(&bytes))
}

/// How many raw words to bring for so many residues: 2·count + 64.
///
/// Whatever the modulus, a raw word is kept with a chance of at least 2/3 (RULES 2), and so these run dry with a chance below 2^-60. After
/// [`Refusal::Dry`](crate::Refusal::Dry) bring more, all of them fresh.
///
/// ```
/// assert_eq!(yuthsaok::random::raw_words(5), 74);
/// ```
pub fn raw_words(count: usize) -> usize {
    count.saturating_mul(2).saturating_add(64)
}
