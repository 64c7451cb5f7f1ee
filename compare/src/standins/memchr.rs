//! memchr: the search for a byte string.

pub mod memmem {
    /// Where `needle` first stands in `haystack`.
    pub fn find(haystack: &[u8], needle: &[u8]) -> Option<usize> {
        if needle.is_empty() {
            return Some(0);
        }
        haystack
            .windows(needle.len())
            .position(|part| part == needle)
    }
}
