//! Whole files: where the printed evtx_file_header.rs and evtx_parser.rs part from document 02's request P1, each place with its
//! smallest input (docs/DIFFERENCES.md, 'Whole files'), and where they agree with it.

#[allow(dead_code, reason = "no bytes are written in hex here")]
mod common;

use common::{answers, both, case};
use compare::cases::{self, file_cases::MOST};
use compare::err::{ChunkError, DeserializationError, EvtxError};
use compare::oracle::file::{self, Header};
use compare::{EvtxFileHeader, EvtxParser, Hasher, HeaderFlags};
use std::collections::BTreeSet;

const CHUNK: usize = 65536;
const BLOCK: u16 = 4096;

/// A file header of zeros but for the magic and the block size, with the right checksum, and zeros up to this length.
fn file(block: u16, length: usize) -> Vec<u8> {
    let mut file = vec![0; length];
    file[..8].copy_from_slice(b"ElfFile\0");
    file[40..42].copy_from_slice(&block.to_le_bytes());
    seal(&mut file);
    file
}

fn seal(file: &mut [u8]) {
    let mut hasher = Hasher::new();
    hasher.update(&file[..120]);
    file[124..128].copy_from_slice(&hasher.finalize().to_le_bytes());
}

/// A chunk without records, its first and last ID being this.
fn chunk(id: u64) -> Vec<u8> {
    let mut chunk = vec![0; CHUNK];
    chunk[..8].copy_from_slice(b"ElfChnk\0");
    chunk[24..32].copy_from_slice(&id.to_le_bytes());
    chunk[32..40].copy_from_slice(&id.to_le_bytes());
    chunk
}

/// Document 02's answer: mode F, without the line of the header's fields and the dot.
fn document(file: &[u8]) -> String {
    let answer = answers(&case(b'F', 0, 0, 0, file));
    let (fields, rest) = answer.split_once('\n').expect("a line");
    assert!(fields.starts_with("file "), "{fields}");
    rest.strip_suffix(".\n").expect("one case").to_owned()
}

/// What the printed parser says of a chunk: its number, or an error and the number that this names.
#[derive(Debug, PartialEq, Eq)]
enum Said {
    Chunk(u64),
    WrongMagic(u64),
    Incomplete(u64),
}

/// What the printed parser says of a file's chunks, or why it does not open the file.
fn printed(file: &[u8]) -> Result<Vec<Said>, EvtxError> {
    let mut parser = EvtxParser::from_buffer(file.to_vec())?;
    let said = |chunk| match chunk {
        Ok(compare::EvtxChunkData { number, .. }) => Said::Chunk(number.expect("the parser's own")),
        Err(EvtxError::FailedToParseChunk { chunk_id, source }) => match *source {
            ChunkError::FailedToParseChunkHeader(DeserializationError::InvalidEvtxChunkMagic {
                ..
            }) => Said::WrongMagic(chunk_id),
            ChunkError::IncompleteChunk => Said::Incomplete(chunk_id),
            err => panic!("not an error of cutting: {err:?}"),
        },
        Err(err) => panic!("not an error of a chunk: {err:?}"),
    };
    Ok(parser.chunks().map(said).collect())
}

#[test]
fn row_f1_header_block() {
    // Document: a header and nothing behind it. The Rust's header reader takes as many, its parser wants the whole block.
    for length in [128, 4095] {
        let short = file(BLOCK, length);
        assert_eq!(document(&short), "checksum yes\n");
        assert!(EvtxFileHeader::from_bytes(&short).is_ok());
        let Err(EvtxError::DeserializationError(DeserializationError::Io(err))) = printed(&short)
        else {
            panic!("the parser opens a file of {length} bytes");
        };
        assert_eq!(err.kind(), std::io::ErrorKind::UnexpectedEof);
    }
    assert_eq!(printed(&file(BLOCK, 4096)).expect("it opens"), []);
}

#[test]
fn row_f2_chunks_begin() {
    // Document: the chunk at 128. The Rust looks at 4096, where the file ends too early.
    let mut near = file(128, 128);
    near.extend(chunk(1));
    assert_eq!(document(&near), "checksum yes\nchunk 128\ndone\n");
    assert_eq!(printed(&near).expect("it opens"), [Said::Incomplete(0)]);
    // Document: a rest of 65,535 bytes at 4097. The Rust reads the chunk at 4096.
    let mut far = file(4097, 4096);
    far.extend(chunk(1));
    assert_eq!(document(&far), "checksum yes\nchunk 4097\nrefused 1 0\n");
    assert_eq!(printed(&far).expect("it opens"), [Said::Chunk(0)]);
    // It tells an error only within its count, which goes by the block size: none here.
    far[4096] = b'e';
    assert_eq!(printed(&far).expect("it opens"), []);
}

#[test]
fn row_f3_block_past_end() {
    // Document: neither chunk nor rest.
    let past = file(4097, 4096);
    assert_eq!(document(&past), "checksum yes\n");
    let err = printed(&past).expect_err("the parser opens it");
    assert!(matches!(err, EvtxError::CalculationError(_)), "{err:?}");
}

#[test]
fn row_f4_zeros() {
    // Document: refused 4.
    let zeros = file(BLOCK, 4096 + CHUNK);
    assert_eq!(document(&zeros), "checksum yes\nchunk 4096\nrefused 4 0\n");
    assert_eq!(printed(&zeros).expect("it opens"), []);
    // With any other byte in it the Rust tells it too.
    let mut one = zeros;
    one[4096 + CHUNK - 1] = 1;
    assert_eq!(printed(&one).expect("it opens"), [Said::WrongMagic(0)]);
}

#[test]
fn row_f5_rest() {
    // Document: refused 1.
    let rest = file(BLOCK, 4097);
    assert_eq!(document(&rest), "checksum yes\nchunk 4096\nrefused 1 0\n");
    assert_eq!(printed(&rest).expect("it opens"), []);
}

#[test]
fn row_f6_order() {
    // Document: 4096, then 69632. The Rust starts with the chunk of the lowest first ID.
    let mut wrapped = file(BLOCK, 4096);
    wrapped.extend(chunk(2));
    wrapped.extend(chunk(1));
    let in_order = "checksum yes\nchunk 4096\ndone\nchunk 69632\ndone\n";
    assert_eq!(document(&wrapped), in_order);
    let from_oldest = [Said::Chunk(1), Said::Chunk(0)];
    assert_eq!(printed(&wrapped).expect("it opens"), from_oldest);
}

#[test]
fn row_f7_no_checksum() {
    // Document: no, whatever the flags say.
    let mut unsummed = file(128, 128);
    unsummed[120] = 4;
    unsummed[124] ^= 1;
    assert_eq!(document(&unsummed), "checksum no\n");
    let header = EvtxFileHeader::from_bytes(&unsummed).expect("a header");
    assert!(header.flags.contains(HeaderFlags::NO_CRC32) && header.validate_checksum());
    assert!(header.checksum != header.computed_checksum);
}

/// The count is looked at by neither, and a wrong magic is told by both and passed over.
#[test]
fn count_and_magic() {
    let mut three = file(BLOCK, 4096);
    for id in 1..=3 {
        three.extend(chunk(id));
    }
    three[4096 + CHUNK] = b'e';
    for count in [0_u16, 1, 3, 65535] {
        three[42..44].copy_from_slice(&count.to_le_bytes());
        seal(&mut three);
        let all = "checksum yes\nchunk 4096\ndone\nchunk 69632\nrefused 4 0\nchunk 135168\ndone\n";
        assert_eq!(document(&three), all);
        let said = [Said::Chunk(0), Said::WrongMagic(1), Said::Chunk(2)];
        assert_eq!(printed(&three).expect("it opens"), said);
    }
}

/// "18, fewer than 128 bytes or wrong file magic, at 0": the printed header reader refuses the same.
#[test]
fn refused_files() {
    let sound = file(BLOCK, 4096);
    let mut files: Vec<Vec<u8>> = [0, 1, 8, 127].map(|length| sound[..length].to_vec()).into();
    for at in 0..8 {
        files.push(sound.clone());
        files.last_mut().expect("just pushed")[at] ^= 0x20;
    }
    for file in files {
        let answer = answers(&case(b'F', 1, 0, 0, &file));
        assert_eq!(answer, "refused 18 0\n.\n");
        assert!(EvtxFileHeader::from_bytes(&file).is_err());
        assert!(printed(&file).is_err());
    }
}

/// The files of the made and of the stored cases.
fn files() -> impl Iterator<Item = Vec<u8>> {
    let made = cases::make("file", 1, 300).expect("a kind");
    let stored = cases::make("stored", 0, usize::MAX).expect("a kind");
    let files = made.chain(stored).filter(|case| case.mode == b'F');
    files.map(|case| case.data)
}

/// On every file the printed header reader finds the same fields; and where chunks begin at 4,096, the printed parser finds the
/// same chunks and wrong magics, less zeros and rest.
#[test]
fn printed_files() {
    let (mut opened, mut refused) = (0, 0);
    for file in files() {
        let printed_header = EvtxFileHeader::from_bytes(&file);
        let Ok(header) = Header::read(&file) else {
            assert!(printed_header.is_err());
            refused += 1;
            continue;
        };
        let theirs = printed_header.expect("a header");
        let same = Header {
            first_chunk: theirs.first_chunk_number,
            last_chunk: theirs.last_chunk_number,
            next_id: theirs.next_record_id,
            header_size: theirs.header_size,
            minor: theirs.minor_version,
            major: theirs.major_version,
            block_size: theirs.header_block_size,
            chunk_count: theirs.chunk_count,
            flags: theirs.flags.bits(),
            checksum: theirs.checksum,
            sound: theirs.checksum == theirs.computed_checksum,
        };
        assert_eq!(header, same);
        if header.block_size != BLOCK || file.len() < usize::from(BLOCK) {
            continue;
        }
        let whole = file::chunks(&file, &header).zip(0_u64..);
        let whole =
            whole.filter(|((_, chunk), _)| chunk.len() == CHUNK && chunk.iter().any(|b| *b != 0));
        let ours: Vec<Said> = whole
            .map(|((_, chunk), number)| {
                if chunk.starts_with(b"ElfChnk\0") {
                    Said::Chunk(number)
                } else {
                    Said::WrongMagic(number)
                }
            })
            .collect();
        let mut theirs = printed(&file).expect("it opens");
        theirs.sort_by_key(|said| match said {
            Said::Chunk(number) | Said::WrongMagic(number) | Said::Incomplete(number) => *number,
        });
        assert_eq!(ours, theirs);
        opened += 1;
    }
    assert!(opened > 50 && refused > 20, "{opened} {refused}");
}

/// The made cases reach each line of the mode, chunks of all counts and all refusals that a walk has.
#[test]
fn made_file_cases() {
    const COUNT: usize = 600;
    let cases = cases::make("file", 2, COUNT).expect("a kind");
    let batch: Vec<u8> = cases.flat_map(|case| case.bytes()).collect();
    let (answers, held) = both(&batch);
    assert!(!held.contains("apart\n"));
    let (mut counts, mut refusals) = (BTreeSet::new(), BTreeSet::new());
    let mut chunks = 0;
    for line in answers.lines() {
        let words: Vec<&str> = line.split(' ').collect();
        match words[..] {
            ["file", ..] => chunks = 0,
            ["chunk", _] => chunks += 1,
            ["refused", number, _] => drop(refusals.insert(number.parse().expect("a number"))),
            ["."] => drop(counts.insert(chunks)),
            _ => {}
        }
    }
    let count = |word: &str| {
        answers
            .lines()
            .filter(|line| line.starts_with(word))
            .count()
    };
    assert_eq!(count("."), COUNT);
    assert!(count("checksum yes") > COUNT / 2 && count("checksum no") > COUNT / 20);
    assert!(count("live ") > COUNT && count("carved ") > COUNT && count("done") > COUNT);
    assert_eq!(counts, (0..=6).collect());
    assert_eq!(refusals, BTreeSet::from([1_u8, 3, 4, 5, 6, 18]));
}

/// A case of any mode may have 331,776 data bytes, and no more.
#[test]
fn most_data() {
    for mode in *b"HRWTSOF" {
        let most = answers(&case(mode, 0, 0, 0, &vec![0; MOST]));
        assert!(most.ends_with(".\n"), "{}", char::from(mode));
        let more = answers(&case(mode, 0, 0, 0, &vec![0; MOST + 1]));
        assert_eq!(more, "bad case\n", "{}", char::from(mode));
    }
}
