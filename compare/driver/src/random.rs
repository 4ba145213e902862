//! Random script lines, the same for the same seed.

use std::io::{self, Write};

use unicode_ident::{is_xid_continue, is_xid_start};

use crate::{
    run::{run_line, Names, Outcome},
    words::*,
};

/// SplitMix64.
struct Rng(u64);

impl Rng {
    fn bits(&mut self) -> u64 {
        self.0 = self.0.wrapping_add(0x9e37_79b9_7f4a_7c15);
        let mut z = self.0;
        z = (z ^ (z >> 30)).wrapping_mul(0xbf58_476d_1ce4_e5b9);
        z = (z ^ (z >> 27)).wrapping_mul(0x94d0_49bb_1331_11eb);
        z ^ (z >> 31)
    }

    fn below(&mut self, n: usize) -> usize {
        (self.bits() % n as u64) as usize
    }

    fn between(&mut self, first: u32, last: u32) -> u32 {
        first + (self.bits() % u64::from(last - first + 1)) as u32
    }

    /// True once in `n` times.
    fn once_in(&mut self, n: usize) -> bool {
        self.below(n) == 0
    }

    fn pick<T: Copy>(&mut self, from: &[T]) -> T {
        from[self.below(from.len())]
    }
}

pub fn print(out: &mut impl Write, seed: u64, count: u64, frames: bool) -> io::Result<()> {
    let mut rng = Rng(seed);
    let names = Names::default();
    for _ in 0..count {
        let (settings, calls) = if frames {
            (all_settings(&mut rng), all_calls(&mut rng))
        } else {
            (one_settings(&mut rng), leaf(&mut rng, 4))
        };
        let ample = format!("{settings} | {calls}");
        if rng.once_in(6) {
            let space = space(&mut rng, &ample, &names, frames);
            writeln!(out, "{settings} space={space} | {calls}")?;
        } else {
            writeln!(out, "{ample}")?;
        }
    }
    Ok(())
}

/// A space near the length of the text, or, where there is more than one call,
/// often one inside it.
fn space(rng: &mut Rng, ample: &str, names: &Names, frames: bool) -> usize {
    let length = match run_line(ample, names) {
        Outcome::Accepted { text, .. } | Outcome::Refused { text, .. } => text.len(),
        Outcome::Skipped(_) => 0,
    };
    match rng.below(8) {
        0 => rng.below(4),
        1 => rng.below(length + 1),
        _ if frames && rng.once_in(2) => rng.below(length + 1),
        _ => (length + rng.below(6)).saturating_sub(3),
    }
}

fn flags(rng: &mut Rng, settings: &mut String, from: &[&str]) {
    for flag in from {
        if rng.once_in(2) {
            settings.push(' ');
            settings.push_str(flag);
        }
    }
}

fn one_settings(rng: &mut Rng) -> String {
    let configured = !rng.once_in(3);
    let mut settings = String::from(if configured { "cfg" } else { "bare" });
    if configured || rng.once_in(6) {
        flags(rng, &mut settings, &["noesc", "suffix", "names"]);
    }
    settings
}

const BLANKS: [char; 11] = [
    ' ', '\t', '\n', '\x0b', '\x0c', '\r', '\u{85}', '\u{200e}', '\u{200f}', '\u{2028}', '\u{2029}',
];

fn layout(rng: &mut Rng) -> String {
    if rng.once_in(60) {
        return plain(
            rng.pick(&["x", "/", "\u{a0}", " x ", "\u{200b}", ",", "\0"])
                .as_bytes(),
        );
    }
    let length = rng.pick(&[0, 1, 1, 2, 4]);
    let one = rng.pick(&BLANKS);
    let text: String = (0..length)
        .map(|_| {
            if rng.once_in(3) {
                rng.pick(&BLANKS)
            } else {
                one
            }
        })
        .collect();
    hex(text.as_bytes())
}

fn letters(rng: &mut Rng) -> String {
    "UIE".chars().filter(|_| rng.once_in(3)).collect()
}

fn all_settings(rng: &mut Rng) -> String {
    let configured = !rng.once_in(4);
    let mut settings = String::from(if configured { "cfg" } else { "bare" });
    if configured || rng.once_in(6) {
        for name in ["nl", "ind", "sep"] {
            if rng.once_in(3) {
                settings.push_str(&format!(" {name}={}", layout(rng)));
            }
        }
        if rng.once_in(2) {
            let limit = rng.pick(&["max", "0", "1", "2", "3", "5"]);
            settings.push_str(&format!(" dl={limit}"));
        }
        flags(rng, &mut settings, &["names", "sepmem", "noesc", "suffix"]);
        if rng.once_in(3) {
            settings.push_str(" compact");
        }
        if rng.once_in(2) {
            settings.push_str(&format!(" ext={}", letters(rng)));
        }
    }
    if rng.once_in(2) {
        settings.push_str(&format!(" def={}", letters(rng)));
    }
    if rng.once_in(3) {
        let limit = rng.pick(&["none", "0", "1", "2", "3", "4", "6", "8", "16", "128"]);
        settings.push_str(&format!(" lim={limit}"));
    }
    settings
}

fn all_calls(rng: &mut Rng) -> String {
    let mut calls = Vec::new();
    // Now and then a long chain of frames, else a tree.
    if rng.once_in(20) {
        let mut left = rng.below(40);
        let mut frames = 0;
        while left > 0 {
            calls.push(opening(rng, 1).0);
            frames += 1;
            left -= 1;
        }
        calls.push(leaf(rng, 60));
        calls.extend((0..frames).map(|_| "end".to_string()));
    } else {
        let depth = rng.pick(&[0, 1, 1, 2, 2, 3, 3, 4, 5, 6, 8]);
        let mut room = 40;
        value(rng, depth, &mut room, &mut calls);
    }
    calls.join(" ")
}

fn value(rng: &mut Rng, depth: usize, room: &mut usize, calls: &mut Vec<String>) {
    *room = room.saturating_sub(1);
    let top = calls.is_empty();
    if depth == 0 || *room == 0 || !top && rng.once_in(4) {
        calls.push(if rng.once_in(5) {
            "none".into()
        } else {
            leaf(rng, 60)
        });
        return;
    }
    let count = rng.below(5);
    let (call, count) = opening(rng, count);
    calls.push(call);
    for _ in 0..count {
        value(rng, depth - 1, room, calls);
    }
    calls.push("end".into());
}

/// An opening and how many elements it takes: `count`, or one.
fn opening(rng: &mut Rng, count: usize) -> (String, usize) {
    let announced = if rng.once_in(6) {
        rng.pick(&[0, 0, 1, count + 1, count.saturating_sub(1), 1000])
    } else {
        count
    };
    match rng.below(10) {
        0 | 1 => ("some".into(), 1),
        2 => (format!("ntstruct:{}", name(rng, 60)), 1),
        3 => (format!("ntvar:{}:{}", name(rng, 60), name(rng, 60)), 1),
        4 => ("seq:?".into(), count),
        5 | 6 => (format!("seq:{announced}"), count),
        7 => (format!("tup:{announced}"), count),
        8 => (format!("tstruct:{}:{announced}", name(rng, 60)), count),
        _ => {
            let (kind, variant) = (name(rng, 60), name(rng, 60));
            (format!("tvar:{kind}:{variant}:{announced}"), count)
        }
    }
}

/// A value that opens no frame and is not None; about one name in `bad` is none.
fn leaf(rng: &mut Rng, bad: usize) -> String {
    match rng.below(16) {
        0 => format!("bool:{}", rng.below(2)),
        1..=3 => integer(rng),
        4 => f32_word(f32_bits(rng)),
        5 => f64_word(f64_bits(rng)),
        6 | 7 => format!("char:{:x}", u32::from(scalar(rng))),
        8..=10 => {
            let text = text(rng);
            format!("str:{}", string(rng, text.as_bytes()))
        }
        11 | 12 => {
            let bytes = bytes(rng);
            format!("bytes:{}", string(rng, &bytes))
        }
        13 => {
            if rng.once_in(4) {
                "unit".into()
            } else {
                format!("ustruct:{}", name(rng, bad))
            }
        }
        14 => format!("ustruct:{}", name(rng, bad)),
        _ => format!("uvar:{}:{}", name(rng, bad), name(rng, bad)),
    }
}

/// Both ways to write a string: as hex, or itself where it is plain.
fn string(rng: &mut Rng, bytes: &[u8]) -> String {
    if rng.once_in(2) {
        hex(bytes)
    } else {
        plain(bytes)
    }
}

fn integer(rng: &mut Rng) -> String {
    let (kind, least, greatest) = rng.pick(&INTEGERS);
    let value = match rng.below(3) {
        0 => rng.pick(&boundaries(least, greatest)),
        1 => {
            // As many bits as may be.
            let bits = i128::from(rng.bits()) >> rng.below(64);
            let value = if rng.once_in(2) { bits } else { -bits };
            value.clamp(least, greatest)
        }
        _ => least + i128::from(rng.bits()) % (greatest - least + 1),
    };
    format!("{kind}:{value}")
}

fn f32_bits(rng: &mut Rng) -> u32 {
    match rng.below(6) {
        0 => rng.pick(&F32_BITS),
        1 => decimal(rng).parse().map_or(0, f32::to_bits),
        2 => rng
            .pick(&F32_BITS)
            .wrapping_add(rng.between(0, 4))
            .wrapping_sub(2),
        3 => {
            // A NaN, an infinity, or a number with few bits.
            let sign = rng.between(0, 1) << 31;
            sign | 0x7f80_0000 | (rng.bits() as u32 & 0x007f_ffff & rng.bits() as u32)
        }
        _ => rng.bits() as u32,
    }
}

fn f64_bits(rng: &mut Rng) -> u64 {
    match rng.below(6) {
        0 => rng.pick(&F64_BITS),
        1 => decimal(rng).parse().map_or(0, f64::to_bits),
        2 => rng
            .pick(&F64_BITS)
            .wrapping_add(rng.bits() % 5)
            .wrapping_sub(2),
        3 => {
            let sign = (rng.bits() & 1) << 63;
            sign | (0x7ff << 52) | (rng.bits() & 0x000f_ffff_ffff_ffff & rng.bits())
        }
        _ => rng.bits(),
    }
}

/// A float in decimal.
fn decimal(rng: &mut Rng) -> String {
    let minus = if rng.once_in(2) { "-" } else { "" };
    match rng.below(4) {
        0 => rng.pick(&DECIMALS).into(),
        1 => format!("{minus}{}", rng.below(100_000)),
        2 => format!("{minus}{}.{}", rng.below(10_000), rng.below(10_000)),
        _ => {
            let exponent = rng.between(0, 60) as i32 - 30;
            format!("{minus}{}e{exponent}", rng.below(1000))
        }
    }
}

fn scalar(rng: &mut Rng) -> char {
    const MARKS: [(u32, u32); 9] = [
        (0x300, 0x36f),
        (0x483, 0x489),
        (0x64b, 0x65f),
        (0x93a, 0x94f),
        (0x1ab0, 0x1ace),
        (0x20d0, 0x20f0),
        (0xfe00, 0xfe0f),
        (0xfe20, 0xfe2f),
        (0xe_0100, 0xe_01ef),
    ];
    const EDGES: [u32; 16] = [
        0, 0x1f, 0x20, 0x7e, 0x7f, 0x80, 0x7ff, 0x800, 0xd7ff, 0xe000, 0xfffd, 0xfffe, 0xffff,
        0x1_0000, 0x3_ffff, 0x10_ffff,
    ];
    const FORMATS: [u32; 14] = [
        0x85, 0xa0, 0xad, 0x61c, 0x1680, 0x180e, 0x200b, 0x200d, 0x200e, 0x2028, 0x2029, 0x2060,
        0x3000, 0xfeff,
    ];
    let at = match rng.below(14) {
        0..=2 => rng.between(0x20, 0x7e),
        3 => u32::from(rng.pick(&['"', '\'', '\\', '#', '#', '"'])),
        4 => rng.between(0, 0x7f),
        5 => rng.pick(&[rng.0 as u32 % 0x20, 0x7f, 0x80 + rng.0 as u32 % 0x20]),
        6 => rng.between(0xa0, 0x52f),
        7 => {
            let (first, last) = rng.pick(&MARKS);
            rng.between(first, last)
        }
        8 => rng.between(0, 0xffff),
        9 => rng.between(0, 0x10_ffff),
        10 => rng.between(0x1_0000, 0x3_ffff),
        11 => rng.pick(&EDGES),
        12 => rng.pick(&FORMATS),
        _ => {
            let (first, last) = rng.pick(&[
                (0x3040, 0x30ff),
                (0x4e00, 0x9fff),
                (0xac00, 0xd7a3),
                (0x600, 0x6ff),
                (0x900, 0xdff),
                (0x1_f300, 0x1_faff),
                (0xe_0000, 0xe_007f),
            ]);
            rng.between(first, last)
        }
    };
    // A surrogate is no scalar value.
    char::from_u32(at).unwrap_or('\u{fffd}')
}

fn length(rng: &mut Rng) -> usize {
    match rng.below(12) {
        0 => 0,
        1 => 1,
        2 => rng.below(60),
        _ => 1 + rng.below(10),
    }
}

fn text(rng: &mut Rng) -> String {
    let length = length(rng);
    match rng.below(6) {
        0 => (0..length)
            .map(|_| char::from(rng.between(0x21, 0x7e) as u8))
            .collect(),
        1 => (0..length)
            .map(|_| rng.pick(&['"', '\\', '#', '#', '#', 'a', '\'', ' ']))
            .collect(),
        2 => {
            // Runs of hashes.
            let mut text = String::new();
            for _ in 0..rng.below(4) {
                text.push_str(&"#".repeat(rng.below(9)));
                text.push(rng.pick(&['"', '\\', 'a', '\u{301}']));
            }
            text
        }
        3 => (0..length)
            .map(|_| rng.pick(&['\0', '\t', '\n', '\r', '\x1b', '\x7f', 'a']))
            .collect(),
        _ => (0..length).map(|_| scalar(rng)).collect(),
    }
}

fn bytes(rng: &mut Rng) -> Vec<u8> {
    let mut bytes = text(rng).into_bytes();
    match rng.below(4) {
        // One byte spoilt.
        0 if !bytes.is_empty() => {
            let at = rng.below(bytes.len());
            bytes[at] = rng.bits() as u8;
        }
        1 => bytes = (0..length(rng)).map(|_| rng.bits() as u8).collect(),
        2 => bytes.truncate(rng.below(bytes.len() + 1)),
        _ => {}
    }
    bytes
}

fn name(rng: &mut Rng, bad: usize) -> String {
    let name: String = if rng.once_in(bad) {
        match rng.below(3) {
            0 => rng.pick(&NO_NAMES).into(),
            1 => format!("a{}", scalar(rng)),
            _ => text(rng),
        }
    } else {
        match rng.below(8) {
            0 => rng.pick(&RESERVED).into(),
            1 => rng.pick(&NAMES).into(),
            2 => {
                // A reserved word, one letter longer or shorter.
                let mut name = String::from(rng.pick(&RESERVED));
                if rng.once_in(2) {
                    name.pop();
                } else {
                    name.push(rng.pick(&['s', '_', '2', '.', '4']));
                }
                name
            }
            3 => {
                let length = 1 + rng.below(6);
                (0..length)
                    .map(|_| rng.pick(&['a', '_', '0', '9', '.', '+', '-', 'Z']))
                    .collect()
            }
            4 => {
                // Letters of any script.
                let first = member(rng, is_xid_start);
                let rest = rng.below(4);
                let rest: String = (0..rest).map(|_| member(rng, is_xid_continue)).collect();
                format!("{first}{rest}")
            }
            5 => (0..1 + rng.below(4))
                .map(|_| member(rng, is_xid_continue))
                .collect(),
            _ => {
                let length = rng.below(12);
                let first = rng.pick(&['a', 'q', 'X', '_', 'T']);
                let rest: String = (0..length)
                    .map(|_| rng.pick(&['a', 'e', 'n', 'T', '_', '0', '7']))
                    .collect();
                format!("{first}{rest}")
            }
        }
    };
    string(rng, name.as_bytes())
}

/// A random member of a set of characters.
fn member(rng: &mut Rng, of: fn(char) -> bool) -> char {
    for _ in 0..20 {
        let c = scalar(rng);
        if of(c) {
            return c;
        }
    }
    'a'
}
