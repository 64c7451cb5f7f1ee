//! Cases on a whole file: block sizes of all kinds, chunks of all kinds, headers that lie, and what is left at the file's end.

use super::Case;
use super::chunk_cases::case;
use super::chunks::{self, SIZE};
use super::random::Random;
use super::stored;
use crate::Hasher;

const MAGIC: &[u8] = b"ElfFile\0";
/// Bytes of a file header, and of those that its checksum is over.
const HEADER: usize = 128;
const SUMMED: usize = 120;
/// The most data of a case: a header block as Windows writes it, and five chunks.
pub const MOST: usize = 331_776;
/// What Windows writes.
const BLOCK: u16 = 4096;

/// The cases that one file is asked for.
pub fn of_one_file(random: &mut Random) -> Vec<Case> {
    let file = make(random);
    // Flags that the mode does not name are passed over.
    let more = random.one_of(&[0, 0, 2, 0xfe]);
    let of = |recovery: u8| case(b'F', recovery | more, 0, &[], &file);
    (0..2).map(of).collect()
}

fn make(random: &mut Random) -> Vec<u8> {
    let block = block_size(random);
    let mut header = some_header(random, block);
    let mut chunks = Vec::new();
    for _ in 0..random.below(6) {
        chunks.extend(some_chunk(random));
    }
    chunks.extend(rest(random));
    // Most headers have the right checksum, whatever stands in them.
    if !random.once_in(5) {
        header.seal();
    }
    let mut file = header.followed_by(&chunks);
    match random.below(20) {
        // It ends within its header block, or within its header.
        0 => file.truncate(random.below(usize::from(block).max(HEADER) + 1)),
        1 => file.truncate(random.one_of(&[0, 1, 8, 127, 128, 129])),
        2 => {
            let at = random.below(MAGIC.len()).min(file.len() - 1);
            file[at] ^= 1 << random.below(8);
        }
        _ => {}
    }
    file.truncate(MOST);
    file
}

fn block_size(random: &mut Random) -> u16 {
    match random.below(6) {
        0 => random.one_of(&[0, 1, 8, 32, 40, 42, 44, 120, 124, 127]),
        1 => random.one_of(&[128, 129, 4095, 4097, 65535]),
        2 => random.word() as u16,
        _ => BLOCK,
    }
}

/// A file's header, and its block size.
struct Header {
    bytes: [u8; HEADER],
    block: u16,
}

impl Header {
    /// As Windows writes it, for so many chunks, with a checksum.
    fn sound(block: u16, chunks: u16) -> Self {
        let mut header = Header {
            bytes: [0; HEADER],
            block,
        };
        header.bytes[..8].copy_from_slice(MAGIC);
        let last = u64::from(chunks).saturating_sub(1);
        header.put(16, &last.to_le_bytes());
        header.put(24, &1000_u64.to_le_bytes());
        header.put(32, &128_u32.to_le_bytes());
        for (at, number) in [(36, 1_u16), (38, 3), (40, block), (42, chunks)] {
            header.put(at, &number.to_le_bytes());
        }
        header.seal();
        header
    }

    /// No two bytes beside each other are the same.
    fn numbered(block: u16) -> Self {
        let mut header = Header::sound(block, 0);
        for (byte, place) in header.bytes[MAGIC.len()..].iter_mut().zip(0_usize..) {
            *byte = (place * 37 + 11) as u8;
        }
        header.put(40, &block.to_le_bytes());
        header.seal();
        header
    }

    fn put(&mut self, at: usize, bytes: &[u8]) {
        self.bytes[at..at + bytes.len()].copy_from_slice(bytes);
    }

    /// The right checksum.
    fn seal(&mut self) {
        let mut hasher = Hasher::new();
        hasher.update(&self.bytes[..SUMMED]);
        self.put(124, &hasher.finalize().to_le_bytes());
    }

    /// A file: the header block, and what follows it. A block of fewer bytes than the header has is laid over it, but for the
    /// magic and the block size, without which it were another file.
    fn followed_by(&self, rest: &[u8]) -> Vec<u8> {
        let block = usize::from(self.block);
        let mut file = vec![0; (block + rest.len()).max(HEADER)];
        file[..HEADER].copy_from_slice(&self.bytes);
        file[block..block + rest.len()].copy_from_slice(rest);
        file[..8].copy_from_slice(&self.bytes[..8]);
        file[40..42].copy_from_slice(&self.block.to_le_bytes());
        file
    }
}

/// A header that tells the truth, or lies, or holds anything.
fn some_header(random: &mut Random, block: u16) -> Header {
    let mut header = Header::sound(block, random.one_of(&[0, 1, 2, 3, 5, 6, 65535]));
    match random.below(4) {
        0 => header.bytes[8..].fill_with(|| random.byte()),
        1 => {
            let at = random.one_of(&[8, 16, 24, 32, 36, 38, 42, 120]);
            header.put(at, &random.word().to_le_bytes());
        }
        _ => {}
    }
    if random.once_in(2) {
        header.put(120, &random.one_of(&[1_u32, 2, 3, 4, 5]).to_le_bytes());
    }
    header.put(40, &block.to_le_bytes());
    header
}

/// A chunk, sound or damaged; one with a wrong magic; zeros; or anything.
fn some_chunk(random: &mut Random) -> Vec<u8> {
    let mut chunk = match random.below(10) {
        0 => vec![0; SIZE],
        1 => {
            let mut other = vec![0; SIZE];
            other[..8].copy_from_slice(random.one_of(&[MAGIC, b"ElfChnk\x01", b"**\0\0**\0\0"]));
            other
        }
        2 => (0..SIZE).map(|_| random.byte()).collect(),
        _ => chunks::make(random).bytes,
    };
    chunk.resize(SIZE, 0);
    chunk
}

/// What is left at the end: most often nothing, else up to a byte less than a chunk.
fn rest(random: &mut Random) -> Vec<u8> {
    let length = match random.below(4) {
        0 => random.one_of(&[1, 2, 8, 511, 512, 4096, SIZE - 1]),
        1 => random.between(1, SIZE - 1),
        _ => return Vec::new(),
    };
    let mut rest = some_chunk(random);
    rest.truncate(length);
    rest
}

/// The files of the stored batch: many that hold no whole chunk, and few that do.
pub fn stored() -> Vec<Case> {
    let mut cases = small();
    cases.extend(overlapping());
    cases.extend(whole());
    cases
}

fn file_case(recovery: bool, file: &[u8]) -> Case {
    case(b'F', u8::from(recovery), 0, &[], file)
}

/// No file, a header alone, block sizes before and behind the end, and rests.
fn small() -> Vec<Case> {
    let mut cases = Vec::new();
    let sound = Header::sound(BLOCK, 0).bytes;
    for length in [0, 1, 8, 127, 128] {
        cases.push(file_case(true, &sound[..length]));
    }
    for at in 0..MAGIC.len() {
        let mut wrong = sound;
        wrong[at] ^= 0x20;
        cases.push(file_case(true, &wrong));
    }
    for block in [0, 1, 8, 40, 127, 128, 129, 130] {
        let header = Header::numbered(block);
        for rest in [&[][..], &[0], b"ElfChnk\0", &[b'*'; 300]] {
            cases.push(file_case(false, &header.followed_by(rest)));
        }
    }
    for block in [4095, 4096, 4097, 65535] {
        let header = Header::numbered(block);
        cases.push(file_case(true, &header.bytes));
        cases.push(file_case(true, &header.followed_by(&[0])));
    }
    // It ends within its header block.
    cases.push(file_case(
        true,
        &Header::sound(BLOCK, 1).followed_by(&[])[..4095],
    ));
    // A wrong checksum, and flags that say that there is none.
    for flags in [0_u32, 1, 4, 0xffff_ffff] {
        let mut header = Header::numbered(BLOCK);
        header.put(120, &flags.to_le_bytes());
        cases.push(file_case(false, &header.bytes));
        header.seal();
        header.bytes[124] ^= 1;
        cases.push(file_case(false, &header.bytes));
    }
    cases
}

/// Block sizes that are not Windows' own, with a chunk there, and behind the header one that is not looked at.
fn overlapping() -> Vec<Case> {
    let damaged = stored::damaged();
    [0, 1, 32, 44, 127, 128, 20_001]
        .map(|block| file_case(true, &Header::sound(block, 1).followed_by(&damaged)))
        .into()
}

/// One chunk; three of all kinds and the longest rest; and five, as many as a case may have, whatever the header's count says.
fn whole() -> Vec<Case> {
    let damaged = stored::damaged();
    let empty = stored::chunk(&[]);
    let mut wrong = damaged.clone();
    wrong[7] = 1;
    let zeros = vec![0; SIZE];
    let all_kinds = [&damaged[..], &zeros, &wrong, &damaged[..SIZE - 1]].concat();
    let five = [&empty[..], &damaged, &zeros, &empty, &damaged].concat();
    let shorter = [&wrong[..], &damaged, &empty[..1]].concat();
    vec![
        file_case(false, &Header::sound(BLOCK, 1).followed_by(&damaged)),
        file_case(true, &Header::sound(BLOCK, 0).followed_by(&all_kinds)),
        file_case(false, &Header::sound(BLOCK, 65535).followed_by(&five)),
        file_case(true, &Header::numbered(65535).followed_by(&shorter)),
        // As much data as a case may have, in another mode.
        case(b'T', 0, 0, &[], &Header::sound(BLOCK, 5).followed_by(&five)),
    ]
}
