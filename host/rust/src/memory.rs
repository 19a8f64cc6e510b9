//! Memory as the calls are lent it.

/// Words as they cross: 8 bytes each, lowest first.
///
/// ```
/// assert_eq!(lomkhvide::bytes_of(&[1, 2])[8..], [2, 0, 0, 0, 0, 0, 0, 0]);
/// ```
pub fn bytes_of(words: &[u64]) -> Vec<u8> {
    words.iter().flat_map(|word| word.to_le_bytes()).collect()
}

/// And back; bytes that are left over are no word.
///
/// ```
/// assert_eq!(lomkhvide::words_of(&[1, 0, 0, 0, 0, 0, 0, 0, 9]), [1]);
/// ```
pub fn words_of(bytes: &[u8]) -> Vec<u64> {
    bytes.as_chunks().0.iter().map(|word| u64::from_le_bytes(*word)).collect()
}

/// The number of the eight bytes from a place on, lowest first.
pub(crate) fn word_at(bytes: &[u8], at: usize) -> u64 {
    let mut word = [0; 8];
    word.copy_from_slice(&bytes[at..at + 8]);
    u64::from_le_bytes(word)
}

/// A fresh store of that many bytes, at least 16.
///
/// ```
/// assert_eq!(lomkhvide::fresh_store(4096).len(), 4096);
/// ```
pub fn fresh_store(length: usize) -> Vec<u8> {
    let mut bytes = vec![0; length.max(16)];
    bytes[4] = 16;
    bytes
}

/// The index of a fresh store, of that many words, at least one.
///
/// ```
/// assert_eq!(lomkhvide::fresh_index(16)[0], 1);
/// ```
pub fn fresh_index(length: usize) -> Vec<u64> {
    let mut words = vec![0; length.max(1)];
    words[0] = 1;
    words
}

/// A fresh pending table: 6,145 words.
///
/// ```
/// assert!(lomkhvide::fresh_table().iter().all(|byte| *byte == 0));
/// ```
pub fn fresh_table() -> Vec<u8> {
    vec![0; 8 * 6145]
}
