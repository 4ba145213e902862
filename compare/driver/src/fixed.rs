//! The fixed list: documents of one value that opens no frame.

use std::{
    collections::HashSet,
    io::{self, Write},
};

use crate::{table, words::*};

/// The lines, each once.
#[derive(Default)]
struct List {
    lines: Vec<String>,
    seen: HashSet<String>,
}

impl List {
    fn put(&mut self, settings: &str, call: &str) {
        let line = format!("{settings} | {call}");
        if self.seen.insert(line.clone()) {
            self.lines.push(line);
        }
    }

    /// The call under each of the settings.
    fn under(&mut self, settings: &[&str], call: &str) {
        for settings in settings {
            self.put(settings, call);
        }
    }
}

fn lines() -> Vec<String> {
    let mut list = List::default();
    plain_values(&mut list);
    integers(&mut list);
    floats(&mut list);
    texts(&mut list);
    byte_strings(&mut list);
    names(&mut list);
    spaces(&mut list);
    list.lines
}

pub fn print(out: &mut impl Write) -> io::Result<()> {
    lines().iter().try_for_each(|line| writeln!(out, "{line}"))
}

fn plain_values(list: &mut List) {
    for call in ["bool:0", "bool:1", "unit"] {
        list.under(
            &[
                "bare",
                "bare noesc suffix names",
                "cfg",
                "cfg noesc suffix names",
            ],
            call,
        );
    }
}

fn integers(list: &mut List) {
    for (kind, least, greatest) in INTEGERS {
        for value in boundaries(least, greatest) {
            list.under(&["bare", "cfg suffix"], &format!("{kind}:{value}"));
        }
        list.under(&["cfg", "bare suffix"], &format!("{kind}:{greatest}"));
    }
}

fn floats(list: &mut List) {
    let mut calls = Vec::new();
    calls.extend(F32_BITS.map(f32_word));
    calls.extend(F64_BITS.map(f64_word));
    for decimal in DECIMALS {
        // The decimals are all well formed.
        calls.extend(decimal.parse().map(|v: f32| f32_word(v.to_bits())));
        calls.extend(decimal.parse().map(|v: f64| f64_word(v.to_bits())));
    }
    for exponent in (-320..=300).step_by(31) {
        let decimal = format!("-1.25e{exponent}");
        calls.extend(decimal.parse().map(|v: f64| f64_word(v.to_bits())));
    }
    for sixteenths in 0..16u32 {
        let value = 1372.0 + f64::from(sixteenths) / 16.0;
        calls.push(f64_word(value.to_bits()));
    }
    for call in calls {
        list.under(&["bare", "cfg suffix"], &call);
    }
}

/// Scalar values spread over Unicode, ASCII aside: the ends of the UTF-8 lengths,
/// the blanks, marks, formats, private use, and a walk over the table's ranges.
fn spread() -> Vec<char> {
    let mut at: Vec<u32> = vec![
        0x80, 0x85, 0x9f, 0xa0, 0xa1, 0xad, 0xb7, 0xe9, 0xff, 0x100, 0x2bc, 0x300, 0x301, 0x345,
        0x36f, 0x378, 0x37a, 0x37e, 0x3b1, 0x416, 0x483, 0x5d0, 0x600, 0x627, 0x64b, 0x661, 0x6dd,
        0x70f, 0x7ff, 0x800, 0x915, 0x93f, 0x94d, 0xe33, 0xfff, 0x1000, 0x1160, 0x1680, 0x180e,
        0x1e00, 0x1fff, 0x2000, 0x200b, 0x200c, 0x200d, 0x200e, 0x200f, 0x2010, 0x2028, 0x2029,
        0x202e, 0x202f, 0x203f, 0x2044, 0x2054, 0x205f, 0x2060, 0x2064, 0x2066, 0x2118, 0x212e,
        0x20ac, 0x20d0, 0x2160, 0x2260, 0x2603, 0x2800, 0x3000, 0x3001, 0x302a, 0x3042, 0x3099,
        0x309b, 0x3400, 0x4e00, 0x53e3, 0x9fff, 0xa000, 0xa66f, 0xac00, 0xd7a3, 0xd7ff, 0xe000,
        0xf8ff, 0xf900, 0xfb01, 0xfd3e, 0xfdd0, 0xfe00, 0xfe0f, 0xfe20, 0xfe33, 0xfeff, 0xff01,
        0xff21, 0xff9e, 0xfff9, 0xfffc, 0xfffd, 0xfffe, 0xffff, 0x1_0000, 0x1_0400, 0x1_1000,
        0x1_d165, 0x1_d400, 0x1_f1e6, 0x1_f3fb, 0x1_f600, 0x1_fbf9, 0x2_0000, 0x2_a6df, 0x3_134a,
        0x3_ffff, 0xe_0001, 0xe_0020, 0xe_0100, 0xf_0000, 0xf_ffff, 0x10_0000, 0x10_fffd,
        0x10_ffff,
    ];
    for (first, last, _) in table::ranges().into_iter().step_by(40) {
        at.extend([first.saturating_sub(1), first, last, last + 1]);
    }
    at.retain(|at| *at > 0x7f);
    at.sort_unstable();
    at.dedup();
    at.into_iter().filter_map(char::from_u32).collect()
}

fn str_word(text: &str) -> String {
    format!("str:{}", plain(text.as_bytes()))
}

fn texts(list: &mut List) {
    for code in 0..0x80u8 {
        let c = char::from(code);
        list.under(&["bare", "cfg noesc"], &format!("str:{}", hex(&[code])));
        list.under(&["bare", "cfg noesc"], &format!("char:{code:x}"));
        list.put("cfg", &str_word(&format!("a{c}{c}b")));
        list.put("cfg noesc", &str_word(&format!("\"{c}")));
    }
    for c in spread() {
        let mut utf8 = [0; 4];
        let text = hex(c.encode_utf8(&mut utf8).as_bytes());
        list.under(&["bare", "cfg noesc"], &format!("str:{text}"));
        list.put("bare", &format!("char:{:x}", u32::from(c)));
    }
    for text in [
        "",
        "a",
        "hello",
        "hello world",
        "a\"#b",
        "\"",
        "\\",
        "#",
        "\"\"",
        "\"#",
        "#\"",
        "\"##",
        "##\"",
        "#\"##\"###",
        "\\#",
        "#\\",
        "####",
        "\\\"",
        "\\n",
        "\"\n",
        "a\nb",
        "a\r\nb",
        "\ta",
        "\0",
        "\0\0",
        "it's",
        "'",
        "a'b\"c",
        "r#\"a\"#",
        "\"#\"##\"###",
        "# # #\"",
        "###a##\"",
        "e\u{301}",
        "\u{301}",
        "\"\u{301}",
        "\\\u{200e}#",
        "\u{feff}bom",
        "\u{1f600}\"#",
        "\u{1f468}\u{200d}\u{1f469}",
        "\u{85}\u{2028}",
        "\u{7f}\u{80}",
        "\u{10ffff}\u{e000}",
    ] {
        list.under(&["bare", "bare noesc", "cfg", "cfg noesc"], &str_word(text));
        let bytes = format!("bytes:{}", hex(text.as_bytes()));
        list.under(&["bare", "cfg noesc"], &bytes);
    }
    for count in [1, 2, 3, 9, 10, 63, 64, 255, 256, 257, 1000] {
        let hashes = "#".repeat(count);
        for text in [
            format!("\"{hashes}"),
            format!("{hashes}\\{hashes}"),
            hashes.clone(),
            "x".repeat(count),
            "\u{301}".repeat(count),
        ] {
            list.under(&["bare", "cfg noesc"], &str_word(&text));
            let bytes = format!("bytes:{}", hex(text.as_bytes()));
            list.put("cfg noesc", &bytes);
        }
    }
}

fn byte_strings(list: &mut List) {
    for byte in 0..=255u8 {
        list.under(&["bare", "cfg noesc"], &format!("bytes:{}", hex(&[byte])));
    }
    let all: Vec<u8> = (0..=255).collect();
    let strings: [&[u8]; 35] = [
        b"abc",
        b"a b",
        b"a\"b",
        b"a\\b",
        b"a'b",
        b"\"#\"",
        b"##\\##",
        b"\"#\xff",
        b"\\\xc3",
        b"\xc3\xa9",
        b"\xc3",
        b"\xa9",
        b"\xc3\xa9\"",
        b"\xc0\x80",
        b"\xc1\xbf",
        b"\xc2\x80",
        b"\xdf\xbf",
        b"\xe0\x80\x80",
        b"\xe0\xa0\x80",
        b"\xed\x9f\xbf",
        b"\xed\xa0\x80",
        b"\xed\xbf\xbf",
        b"\xee\x80\x80",
        b"\xef\xbf\xbf",
        b"\xf0\x8f\xbf\xbf",
        b"\xf0\x90\x80\x80",
        b"\xf4\x8f\xbf\xbf",
        b"\xf4\x90\x80\x80",
        b"\xf5\x80\x80\x80",
        b"\xf0\x9f\x98",
        b"\xf0\x9f\x98\x80",
        b"\xfe\xff",
        b"a\xffb\"#",
        b"\0\x01\x7f",
        &all,
    ];
    for string in strings {
        list.under(&["bare", "cfg noesc"], &format!("bytes:{}", hex(string)));
        let quoted = [string, b"\""].concat();
        list.put("cfg noesc", &format!("bytes:{}", hex(&quoted)));
    }
}

fn names(list: &mut List) {
    let all = RESERVED.iter().chain(&NAMES).chain(&NO_NAMES);
    for name in all {
        let name = plain(name.as_bytes());
        list.under(&["bare", "cfg names"], &format!("ustruct:{name}"));
        list.under(&["bare", "cfg names"], &format!("uvar:=T:{name}"));
        list.put("cfg", &format!("uvar:{name}:=V"));
    }
    for (name, variant) in [
        ("", ""),
        (" ", "a"),
        ("a", " "),
        ("Some", "None"),
        ("9x", "a-b"),
    ] {
        let (name, variant) = (plain(name.as_bytes()), plain(variant.as_bytes()));
        list.under(
            &["bare names", "cfg names"],
            &format!("uvar:{name}:{variant}"),
        );
        list.under(&["bare names", "cfg"], &format!("ustruct:{name}"));
    }
    // Characters at the edges of the name sets, alone and behind a letter.
    for (first, last, sets) in table::ranges().into_iter().step_by(60) {
        for at in [first, last] {
            if let Some(c) = char::from_u32(at).filter(|_| !sets.is_empty()) {
                let alone = plain(c.to_string().as_bytes());
                let behind = plain(format!("a{c}").as_bytes());
                list.put("cfg names", &format!("ustruct:{alone}"));
                list.put("bare", &format!("uvar:=T:{behind}"));
            }
        }
    }
}

fn spaces(list: &mut List) {
    for (settings, call, length) in [
        ("bare", "bool:1", 4usize),
        ("bare", "bool:0", 5),
        ("bare", "unit", 2),
        ("bare", "i8:-128", 4),
        ("cfg suffix", "i8:-128", 6),
        ("cfg suffix", "u64:18446744073709551615", 23),
        ("cfg suffix", "f32:3f800000:1.0", 6),
        ("bare", "f64:fff8000000000000:-NaN", 4),
        ("bare", "char:27", 4),
        ("bare", "char:1f600", 6),
        ("bare", "str:", 2),
        ("bare", "str:09", 4),
        ("bare", "str:cc81", 9),
        ("cfg noesc", "str:=a\"#b", 11),
        ("bare", "bytes:00", 7),
        ("cfg noesc", "bytes:=\\", 7),
        ("cfg names", "ustruct:=Some", 6),
        ("cfg", "ustruct:=Some", 2),
        ("bare", "uvar:=T:=Name", 4),
        ("bare", "uvar:=T:=9x", 4),
    ] {
        for space in [0, 1, length / 2, length - 1, length, length + 1] {
            list.put(&format!("{settings} space={space}"), call);
        }
        list.put(&format!("{settings} space=none"), call);
    }
    list.put("bare space=0", "ustruct:20");
    list.put("cfg names space=0", "ustruct:");
}
