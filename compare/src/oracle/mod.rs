//! The printed Rust as an oracle: its answers, in document 01's numbers and places. The grammar and the
//! C calls, which it has no counterpart for, are written down from document 01.

pub mod batch;
pub mod bodies;
pub mod calls;
pub mod chunk;
pub mod content;
pub mod differences;
pub mod event;
pub mod file;
pub mod kinds;
pub mod leaves;
pub mod nests;
pub mod owners;
pub mod refusal;
pub mod tokens;
mod values;

/// Document 01's length of a chunk, and its limit for a stream.
pub(crate) const CHUNK_SIZE: usize = 65536;

/// Bytes as the batch format writes them: lower-case hex, `-` where there are none.
pub(crate) fn hex(bytes: &[u8]) -> String {
    use std::fmt::Write;
    if bytes.is_empty() {
        return "-".to_owned();
    }
    let mut text = String::with_capacity(2 * bytes.len());
    for byte in bytes {
        write!(text, "{byte:02x}").expect("a String takes all");
    }
    text
}
