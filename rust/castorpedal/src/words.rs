//! Words in bytes.

/// The bytes of the word that stands somewhere, as `from_le_bytes` takes them.
pub(crate) fn word<const N: usize>(bytes: &[u8], at: usize) -> [u8; N] {
    bytes[at..at + N].try_into().expect("a range of N bytes")
}
