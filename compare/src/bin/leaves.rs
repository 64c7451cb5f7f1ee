//! Prints what the printed readers answer to the vectors of the port's program `read_vectors`, in
//! the same lines.
//!
//! Left out, since the printed cursor cannot stand there: reads at a position past the end. Left
//! out, since the printed Rust has no such call: numbers without a refusal, where a name's units
//! stand, the hash alone, and an array of more than 65,535 bytes.

use compare::oracle::leaves::{self, Answer, View};

const LARGEST: usize = usize::MAX;

fn main() {
    let bytes = [0x11, 0x22, 0x33, 0x44, 0x55, 0x66, 0x77, 0x88, 0x99];
    for n in 0..=bytes.len() {
        for at in (0..11).chain([LARGEST]) {
            numbers(&bytes[..n], at);
        }
    }
    parts();
    texts();
    names();
}

/// A line: the call and what it was given, then what it answered.
fn line(call: &str, len: usize, at: usize, more: usize, answer: Answer<String>) {
    match answer {
        Ok(text) => println!("{call} {len} {at} {more}: {text}"),
        Err(r) => println!("{call} {len} {at} {more}: refused {} {}", r.number, r.place),
    }
}

fn numbers(s: &[u8], at: usize) {
    if at <= s.len() {
        let pair = |(v, next): (u64, usize)| format!("{v} {next}");
        line("u8", s.len(), at, 0, leaves::u8_at(s, at).map(pair));
        line("u16", s.len(), at, 0, leaves::u16_at(s, at).map(pair));
        line("u32", s.len(), at, 0, leaves::u32_at(s, at).map(pair));
        line("u64", s.len(), at, 0, leaves::u64_at(s, at).map(pair));
    }
    // A cursor at a position is one at 0 that is set to it.
    let set = || leaves::set(s, 0, at as u64).map(|next| next.to_string());
    line("with_pos", s.len(), at, 0, set());
    line("set_pos", s.len(), at, 0, set());
}

/// The bytes of a part and the next position.
fn part(bytes: &[u8], next: usize) -> String {
    let each: String = bytes.iter().map(|b| format!(" {b}")).collect();
    format!("[{each} ] {next}")
}

fn parts() {
    let s = [1, 2, 3, 4];
    for at in 0..=s.len() {
        for n in (0..6).chain([LARGEST]) {
            let answer = leaves::take(&s, at, n).map(|(bytes, next)| part(bytes, next));
            line("take", s.len(), at, n, answer);
        }
    }
    // SIDs of no group, of one, of four and of 255.
    for (groups, len) in [(0, 11), (1, 15), (4, 26), (255, 15)] {
        let mut sid: Vec<u8> = (0..len).collect();
        sid[0] = 255;
        sid[2] = groups;
        for i in 3..len {
            sid[usize::from(i)] = i - 1;
        }
        for n in 1..=sid.len() {
            let answer = leaves::sid(&sid[..n], 1).map(|(bytes, next)| part(bytes, next));
            line("sid", n, 1, 0, answer);
        }
    }
    let s: Vec<u8> = (1..=17).collect();
    for size in 0..18 {
        for width in [0, 1, 2, 4, 8, 16] {
            let answer = leaves::array(&s, 1, width, size)
                .map(|(_, next)| part(&s[1..1 + usize::from(size)], next));
            line("array", s.len(), width, usize::from(size), answer);
        }
    }
}

fn view(s: &[u8], answer: Answer<View>) -> Answer<String> {
    answer.map(|v| part(&s[v.start..v.start + v.length], v.next))
}

fn texts() {
    let text = b"A\0B\0\0\0C\0\x03";
    for n in 0..=text.len() {
        cut(&text[..n]);
    }
    cut(b"\x00\x41\x42\x00\x00\x43\x00\x00\x44\x00");
    let counts: [&[u8]; 5] = [
        b"\x00\x00A\0B\0",
        b"\x01\x00A\0B\0",
        b"\x02\x00A\0B\0\0\0",
        b"\x03\x00A\0\0\0B\0\0\0",
        b"\xFF\xFFA\0\0\0B\0\0\0",
    ];
    for whole in counts {
        for n in 0..=whole.len() {
            let s = &whole[..n];
            for terminated in [false, true] {
                let answer = view(s, leaves::prefixed(s, 0, terminated));
                line("prefixed", n, 0, usize::from(terminated), answer);
            }
        }
    }
}

fn cut(s: &[u8]) {
    for at in 0..=s.len() {
        line(
            "zero_ended",
            s.len(),
            at,
            0,
            view(s, leaves::zero_ended(s, at)),
        );
        for n in [0, 1, 2, 4, LARGEST / 2, LARGEST / 2 + 1, LARGEST] {
            line(
                "counted",
                s.len(),
                at,
                n,
                view(s, leaves::counted(s, at, n)),
            );
        }
    }
}

fn names() {
    let offsets: [&[u8]; 5] = [
        b"\x00\x02\x00\x00\xFF",
        b"\x04\x00\x00\x00\x01\x02\x03\x04\x05\x06\x00\x00\x00\x00",
        b"\x04\x00\x00\x00\x01\x02\x03\x04\x05\x06\x01\x00A\0\0\0",
        b"\x04\x00\x00\x00\x01\x02\x03\x04\x05\x06\x02\x00A\0B\0\0\0",
        b"\x04\x00\x00\x00\x01\x02\x03\x04\x05\x06\xFF\xFFA\0B\0\0\0",
    ];
    for whole in offsets {
        cut_name(whole, false);
    }
    let skipped = b"\xFF\xFF\x06\x00\x00\x00\x01\x02\x03\x04\x05\x06\x00\x00\x00\x00";
    name_at(skipped, 2, false);
    let inlines: [&[u8]; 7] = [
        b"\x41\x10\x02\x00A\0B\0\0\0\xFF",
        b"\x00\x00\x00\x00\0\0",
        b"\x41\x00\x01\x00A\0\0\0",
        b"\x40\x10\x02\x00A\0B\0\0\0",
        b"\x41\x10\x02\x00A\0B\0\x01\0",
        b"\x40\x10\x02\x00A\0B\0\0\x01",
        b"\x41\x10\xFF\xFFA\0B\0\0\0",
    ];
    for whole in inlines {
        cut_name(whole, true);
    }
}

fn cut_name(whole: &[u8], inline: bool) {
    for n in 0..=whole.len() {
        name_at(&whole[..n], 0, inline);
    }
}

fn name_at(s: &[u8], at: usize, inline: bool) {
    let answer = leaves::name(s, at, inline).map(|(offset, next)| format!("{offset} {next}"));
    line("name", s.len(), at, usize::from(inline), answer);
}
