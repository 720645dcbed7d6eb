//! Words of 32 bits in bytes, the lowest byte first.

pub fn to_bytes(words: &[u32]) -> Vec<u8> {
    words.iter().flat_map(|word| word.to_le_bytes()).collect()
}

pub fn from_bytes(bytes: &[u8]) -> Vec<u32> {
    bytes.as_chunks::<4>().0.iter().map(|word| u32::from_le_bytes(*word)).collect()
}

/// Some words at the start.
pub fn leading<const N: usize>(bytes: &[u8]) -> Option<[u32; N]> {
    let words = bytes.as_chunks::<4>().0.get(..N)?;
    Some(std::array::from_fn(|i| u32::from_le_bytes(words[i])))
}
