//! Batches for the checks, made in memory.

use compare::oracle::batch;
use std::path::PathBuf;
use std::{env, fs};

/// A case of a batch.
pub fn case(mode: u8, flags: u8, start: u32, length: u32, data: &[u8]) -> Vec<u8> {
    let mut case = vec![mode, flags];
    for word in [start, length, data.len() as u32] {
        case.extend(word.to_le_bytes());
    }
    case.extend(data);
    case
}

/// A case on a whole stream that lends so many words of each kind.
#[allow(dead_code, reason = "not every check uses it")]
pub fn lending(mode: u8, flags: u8, rooms: &[u32], stream: &[u8]) -> Vec<u8> {
    let mut data: Vec<u8> = rooms.iter().flat_map(|room| room.to_le_bytes()).collect();
    data.extend(stream);
    case(mode, flags, 0, stream.len() as u32, &data)
}

/// The answer lines of a batch by the printed Rust, and by document 01's second reading with the rows of the list of differences.
pub fn both(batch: &[u8]) -> (String, String) {
    let (mut rust, mut held) = (Vec::new(), Vec::new());
    batch::run(&mut &batch[..], &mut rust).expect("memory takes all");
    batch::run_held(&mut &batch[..], &mut held).expect("memory takes all");
    let text = |out| String::from_utf8(out).expect("answers are text");
    (text(rust), text(held))
}

/// The answer lines of a batch that meets no difference.
#[allow(dead_code, reason = "not every check uses it")]
pub fn answers(batch: &[u8]) -> String {
    let (rust, held) = both(batch);
    assert_eq!(rust, held);
    rust
}

#[allow(dead_code, reason = "not every check uses it")]
pub fn hex(text: &str) -> Vec<u8> {
    let digits: Vec<char> = text.chars().filter(|c| !c.is_whitespace()).collect();
    let byte = |pair: &[char]| u8::from_str_radix(&String::from_iter(pair), 16).expect("hex");
    digits.chunks(2).map(byte).collect()
}

/// The names and bytes of logs that Windows wrote. `EVTX_REAL` names their folder (else ../shared/real); where it is not there they are left
/// out, which under CI=true is a failure.
#[allow(dead_code, reason = "not every check uses it")]
pub fn logs() -> Vec<(String, Vec<u8>)> {
    let root = PathBuf::from(env!("CARGO_MANIFEST_DIR")).join("..");
    let folder = env::var_os("EVTX_REAL").map_or("../shared/real".into(), PathBuf::from);
    let files = fs::read_dir(root.join(folder)).into_iter().flatten();
    let paths = files.map(|file| file.expect("a file").path());
    let mut logs: Vec<(String, Vec<u8>)> = paths
        .filter(|path| path.extension().is_some_and(|end| end == "evtx"))
        .map(|path| {
            let name = path.file_name().unwrap_or_default().to_string_lossy();
            (name.into_owned(), fs::read(&path).expect("a log"))
        })
        .collect();
    logs.sort();
    let ci = env::var_os("CI").is_some_and(|ci| ci == "true");
    assert!(
        !ci || !logs.is_empty(),
        "no logs: EVTX_REAL names their folder"
    );
    logs
}
