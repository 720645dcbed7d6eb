//! Residues from raw words.

/// The residues of the kept words, as many as are asked for, and how many words were read for them; none where the words run dry.
pub fn draw(q: u32, count: usize, words: &[u32]) -> Option<(Vec<u32>, usize)> {
    let limit = (1u64 << 32) / u64::from(q) * u64::from(q);
    let mut residues = Vec::new();
    let mut read = 0;
    for word in words {
        if residues.len() == count {
            break;
        }
        read += 1;
        if u64::from(*word) < limit {
            residues.push(word % q);
        }
    }
    (residues.len() == count).then_some((residues, read))
}
