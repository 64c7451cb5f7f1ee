//! Stand-ins for what the printed files name and the folder of printed files does not hold, or
//! holds only with rendering in tow: other crates, and a few modules of the crate itself.
//!
//! None of them stands in for anything that the comparison is about.

#[macro_use]
mod bitflags;
pub mod ahash;
pub mod bumpalo;
pub mod crc32fast;
pub mod encoding_rs;
pub mod guid;
pub mod jiff;
pub mod log;
pub mod memchr;
pub mod mta;
pub mod serde_json;
