//! The printed Rust, compiled as it stands, and the calls that the comparison makes of it.
//!
//! The printed files name each other by `crate::` paths, so this crate has their shape: build.rs
//! writes the module tree that points at them, and the stand-ins fill what is missing. `oracle`
//! asks the printed code and puts what it says into document 01's numbers and places.

#[macro_use]
mod standins;

// The printed files name other crates. Each such name leads to this crate's root, where the names
// that they ask for are found.
extern crate self as ahash;
extern crate self as bumpalo;
#[cfg(not(true_crc32fast))]
extern crate self as crc32fast;
extern crate self as encoding_rs;
extern crate self as jiff;
extern crate self as log;
#[cfg(not(true_memchr))]
extern crate self as memchr;
extern crate self as serde_json;
#[cfg(true_crc32fast)]
extern crate true_crc32fast as crc32fast;
#[cfg(true_memchr)]
extern crate true_memchr as memchr;

#[allow(
    unused_imports,
    reason = "which of them the printed files use is their own affair"
)]
pub(crate) use standins::log::{debug, error, info, trace, warn};
#[doc(hidden)]
pub use standins::{
    ahash::AHashMap,
    bumpalo::{Bump, collections},
    crc32fast::{Hasher, checksum_ieee},
    encoding_rs::{Encoding, WINDOWS_1252},
    jiff::{Timestamp, civil, tz},
    memchr::memmem,
    serde_json::{Value, error, from_str},
};

// What the printed crate's own root and its left out modules hold.
pub use evtx_chunk::{EvtxChunk, EvtxChunkData, EvtxChunkHeader};
pub use evtx_file_header::{EvtxFileHeader, HeaderFlags};
pub use evtx_parser::{EvtxParser, ParserSettings};
pub use evtx_record::EvtxRecord;
#[doc(hidden)]
pub use standins::{guid::Guid, mta};

pub type ChunkOffset = u32;
pub type AnsiCodec = &'static Encoding;

include!(concat!(env!("OUT_DIR"), "/printed.rs"));

pub mod cases;
pub mod document;
pub mod oracle;
pub mod pairs;
pub mod timed;
