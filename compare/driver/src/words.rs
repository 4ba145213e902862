//! Writes calls as words of a script.

use crate::run::{float_text32, float_text64};

/// The hex of the bytes.
pub fn hex(bytes: &[u8]) -> String {
    bytes.iter().map(|b| format!("{b:02x}")).collect()
}

/// `=` and the text itself where that is plain to read, else the hex.
pub fn plain(bytes: &[u8]) -> String {
    match std::str::from_utf8(bytes) {
        Ok(text) if bytes.iter().all(|b| b.is_ascii_graphic() && *b != b':') => format!("={text}"),
        _ => hex(bytes),
    }
}

pub fn f32_word(bits: u32) -> String {
    format!("f32:{bits:08x}:{}", float_text32(f32::from_bits(bits)))
}

pub fn f64_word(bits: u64) -> String {
    format!("f64:{bits:016x}:{}", float_text64(f64::from_bits(bits)))
}

/// The integer types with their least and greatest values.
pub const INTEGERS: [(&str, i128, i128); 8] = [
    ("i8", i8::MIN as i128, i8::MAX as i128),
    ("i16", i16::MIN as i128, i16::MAX as i128),
    ("i32", i32::MIN as i128, i32::MAX as i128),
    ("i64", i64::MIN as i128, i64::MAX as i128),
    ("u8", u8::MIN as i128, u8::MAX as i128),
    ("u16", u16::MIN as i128, u16::MAX as i128),
    ("u32", u32::MIN as i128, u32::MAX as i128),
    ("u64", u64::MIN as i128, u64::MAX as i128),
];

/// Values of a type at the places where digits or bits change.
pub fn boundaries(least: i128, greatest: i128) -> Vec<i128> {
    let mut values = vec![least, least + 1, greatest - 1, greatest, 0];
    for exponent in 0..20 {
        let power = 10i128.pow(exponent);
        values.extend([power - 1, power, power + 1]);
        values.extend([1 - power, -power, -power - 1]);
    }
    for exponent in [7, 8, 15, 16, 31, 32, 63] {
        let power = 1i128 << exponent;
        values.extend([power - 1, power, power + 1, 1 - power, -power, -power - 1]);
    }
    values.retain(|value| (least..=greatest).contains(value));
    values.sort_unstable();
    values.dedup();
    values
}

pub const RESERVED: [&str; 10] = [
    "true", "false", "Some", "None", "inf", "inff32", "inff64", "NaN", "NaNf32", "NaNf64",
];

/// Names that can be written, some of them only behind `r#`.
pub const NAMES: [&str; 52] = [
    "a",
    "Z",
    "_",
    "__",
    "_0",
    "x1",
    "Point",
    "snake_case",
    "CamelCase",
    "SHOUT",
    "r",
    "b",
    "br",
    "r_",
    "a9",
    "f32",
    "i8",
    "u64",
    "trueish",
    "true_",
    "TRUE",
    "True",
    "some",
    "none",
    "Som",
    "Somee",
    "nan",
    "Inf",
    "inff",
    "inff3",
    "inff33",
    "NaNf",
    "NaNf6",
    "0",
    "9x",
    "1.5",
    "a.b",
    "a-b",
    "a+b",
    ".",
    "+",
    "-",
    "-1",
    "a.",
    ".a",
    "\u{e9}t\u{e9}",
    "\u{3b1}\u{3b2}",
    "\u{416}\u{443}\u{43a}",
    "\u{53e3}",
    "a\u{301}",
    "\u{301}a",
    "\u{661}a",
];

/// Names that cannot.
pub const NO_NAMES: [&str; 28] = [
    "",
    " ",
    "a b",
    " a",
    "a ",
    "a:b",
    "r#a",
    "a#",
    "a\"",
    "'",
    "\\",
    "a/b",
    "a(",
    ")",
    "[",
    "{}",
    "a,b",
    "a=b",
    "$x",
    "a\n",
    "\t",
    "\0",
    "a\u{a0}b",
    "\u{200e}",
    "\u{2028}",
    "\u{1f600}",
    "a\u{1f600}",
    "\u{10ffff}",
];

pub const F32_BITS: [u32; 40] = [
    0x0000_0000,
    0x8000_0000,
    0x0000_0001,
    0x8000_0001,
    0x0000_0002,
    0x007f_ffff,
    0x807f_ffff,
    0x0080_0000,
    0x8080_0000,
    0x0080_0001,
    0x7f7f_ffff,
    0xff7f_ffff,
    0x7f7f_fffe,
    0x7f80_0000,
    0xff80_0000,
    0x7fc0_0000,
    0xffc0_0000,
    0x7f80_0001,
    0xff80_0001,
    0x7fff_ffff,
    0xffff_ffff,
    0x3f80_0000,
    0xbf80_0000,
    0x3f7f_ffff,
    0x3f80_0001,
    0x3f00_0000,
    0x3e80_0000,
    0x3dcc_cccd,
    0x3eaa_aaab,
    0x4049_0fdb,
    0x4b00_0000,
    0x4b7f_ffff,
    0x4b80_0000,
    0x4b80_0001,
    0x5f00_0000,
    0x5f80_0000,
    0x4eff_ffff,
    0x4f00_0000,
    0x3400_0000,
    0x3380_0000,
];

pub const F64_BITS: [u64; 40] = [
    0x0000_0000_0000_0000,
    0x8000_0000_0000_0000,
    0x0000_0000_0000_0001,
    0x8000_0000_0000_0001,
    0x0000_0000_0000_0002,
    0x000f_ffff_ffff_ffff,
    0x800f_ffff_ffff_ffff,
    0x0010_0000_0000_0000,
    0x8010_0000_0000_0000,
    0x0010_0000_0000_0001,
    0x7fef_ffff_ffff_ffff,
    0xffef_ffff_ffff_ffff,
    0x7fef_ffff_ffff_fffe,
    0x7ff0_0000_0000_0000,
    0xfff0_0000_0000_0000,
    0x7ff8_0000_0000_0000,
    0xfff8_0000_0000_0000,
    0x7ff0_0000_0000_0001,
    0xfff0_0000_0000_0001,
    0x7fff_ffff_ffff_ffff,
    0xffff_ffff_ffff_ffff,
    0x3ff0_0000_0000_0000,
    0xbff0_0000_0000_0000,
    0x3fef_ffff_ffff_ffff,
    0x3ff0_0000_0000_0001,
    0x3fe0_0000_0000_0000,
    0x3fd0_0000_0000_0000,
    0x3fb9_9999_9999_999a,
    0x3fd5_5555_5555_5555,
    0x4009_21fb_5444_2d18,
    0x4330_0000_0000_0000,
    0x433f_ffff_ffff_ffff,
    0x4340_0000_0000_0000,
    0x4340_0000_0000_0001,
    0x43e0_0000_0000_0000,
    0x43f0_0000_0000_0000,
    0x41df_ffff_ffc0_0000,
    0x41e0_0000_0000_0000,
    0x3cb0_0000_0000_0000,
    0x3ca0_0000_0000_0000,
];

/// Floats written in decimal, among them those around the turns to and from `e`.
pub const DECIMALS: [&str; 52] = [
    "1.5",
    "-1.5",
    "2",
    "-2",
    "3",
    "7",
    "9.5",
    "10",
    "12",
    "99.25",
    "100",
    "123.456",
    "-123.456",
    "1000",
    "1024",
    "1372.5",
    "65535",
    "65536",
    "123456.789",
    "1000000",
    "16777217",
    "1e7",
    "123456789",
    "1e9",
    "1e10",
    "1e15",
    "9.999999e15",
    "9999999999999998",
    "1e16",
    "1.1e16",
    "1e17",
    "1.5e17",
    "1e20",
    "1e22",
    "1e23",
    "1e30",
    "1e38",
    "3.4e38",
    "0.1",
    "0.2",
    "0.3",
    "0.01",
    "0.001",
    "0.0001",
    "0.00012345",
    "0.000099999",
    "0.00001",
    "1e-5",
    "-1e-5",
    "1e-7",
    "1e-10",
    "6.25e-2",
];
