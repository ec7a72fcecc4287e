use crate::Set;

/// A parcel of version 1 with this entry set, these words and as many notes.
pub fn parcel(entry: u64, words: &[u64], notes: &[u64]) -> Vec<u8> {
    parcel_of(entry, words, notes)
}

/// A parcel of version 2, its sets as low halves and high halves.
pub fn parcel_2(entry: [u64; 2], words: &[u64], notes: &[[u64; 2]]) -> Vec<u8> {
    let notes: Vec<u128> = notes.iter().map(|note| Set::from_halves(*note)).collect();
    parcel_of(u128::from_halves(entry), words, &notes)
}

/// A parcel of the version whose sets these are.
pub fn parcel_of<S: Set>(entry: S, words: &[u64], notes: &[S]) -> Vec<u8> {
    assert_eq!(words.len(), notes.len());
    let mut bytes = Vec::with_capacity(S::HEADER + (8 + S::BYTES) * words.len());
    bytes.extend(b"VSP");
    bytes.extend([S::VERSION, 0, 0]);
    bytes.extend((words.len() as u16).to_le_bytes());
    bytes.extend(entry.bytes());
    bytes.extend(words.iter().flat_map(|word| word.to_le_bytes()));
    bytes.extend(notes.iter().flat_map(|note| note.bytes()));
    bytes
}

/// The parcel with another word at an index.
pub fn with_word(parcel: &[u8], index: usize, word: u64) -> Vec<u8> {
    let mut bytes = parcel.to_vec();
    let header = if bytes[3] == u128::VERSION { u128::HEADER } else { u64::HEADER };
    bytes[header + 8 * index..][..8].copy_from_slice(&word.to_le_bytes());
    bytes
}

/// The parcel with another version.
pub fn with_version(parcel: &[u8], version: u16) -> Vec<u8> {
    let mut bytes = parcel.to_vec();
    bytes[3..5].copy_from_slice(&version.to_le_bytes());
    bytes
}
