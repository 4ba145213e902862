//! A script line: `settings | calls`. This module reads one.

use ron::extensions::Extensions;

/// The settings of a document, before the bar.
pub struct Settings {
    pub configured: bool,
    pub new_line: Vec<u8>,
    pub indentor: Vec<u8>,
    pub separator: Vec<u8>,
    pub depth_limit: usize,
    pub struct_names: bool,
    pub separate_tuple_members: bool,
    pub compact_arrays: bool,
    pub escape_strings: bool,
    pub number_suffixes: bool,
    pub extensions: Extensions,
    pub default_extensions: Extensions,
    pub recursion_limit: Option<usize>,
    pub space: Option<usize>,
}

impl Default for Settings {
    fn default() -> Self {
        Settings {
            configured: false,
            new_line: b"\n".to_vec(),
            indentor: b"    ".to_vec(),
            separator: b" ".to_vec(),
            depth_limit: usize::MAX,
            struct_names: false,
            separate_tuple_members: false,
            compact_arrays: false,
            escape_strings: true,
            number_suffixes: false,
            extensions: Extensions::empty(),
            default_extensions: Extensions::empty(),
            recursion_limit: None,
            space: None,
        }
    }
}

/// A call. Arguments that ron could not be given (text that is not UTF-8, no
/// scalar value, a float text that its bits do not print) are kept as they
/// stand: they matter only if the call is reached.
pub enum Call {
    Bool(bool),
    I8(i8),
    I16(i16),
    I32(i32),
    I64(i64),
    U8(u8),
    U16(u16),
    U32(u32),
    U64(u64),
    F32(f32, Option<String>),
    F64(f64, Option<String>),
    Char(u32),
    Str(Vec<u8>),
    Bytes(Vec<u8>),
    None,
    Unit,
    UnitStruct(Vec<u8>),
    UnitVariant(Vec<u8>, Vec<u8>),
    Some,
    NewtypeStruct(Vec<u8>),
    NewtypeVariant(Vec<u8>, Vec<u8>),
    Seq(Option<usize>),
    Tuple(usize),
    TupleStruct(Vec<u8>, usize),
    TupleVariant(Vec<u8>, Vec<u8>, usize),
    End,
}

impl Call {
    /// Opens a frame that holds exactly one value.
    pub fn holds_one(&self) -> bool {
        matches!(
            self,
            Call::Some | Call::NewtypeStruct(_) | Call::NewtypeVariant(..)
        )
    }

    /// Opens a frame.
    pub fn opens(&self) -> bool {
        self.holds_one()
            || matches!(
                self,
                Call::Seq(_) | Call::Tuple(_) | Call::TupleStruct(..) | Call::TupleVariant(..)
            )
    }
}

/// The most frames around one of the values or openings.
pub fn most_around(calls: &[Call]) -> usize {
    let mut around = 0usize;
    let mut most = 0;
    for call in calls {
        if let Call::End = call {
            around = around.saturating_sub(1);
        } else {
            most = most.max(around);
            around += usize::from(call.opens());
        }
    }
    most
}

pub fn read_line(line: &str) -> Result<(Settings, Vec<Call>), String> {
    let mut words = line.split(' ').filter(|word| !word.is_empty());
    let mut settings = Settings::default();
    loop {
        match words.next() {
            None => return Err("no bar between settings and calls".into()),
            Some("|") => break,
            Some(word) => read_setting(&mut settings, word)?,
        }
    }
    let calls = words.map(read_call).collect::<Result<_, _>>()?;
    Ok((settings, calls))
}

fn read_setting(settings: &mut Settings, word: &str) -> Result<(), String> {
    let unknown = || format!("no such setting: {word}");
    match word.split_once('=') {
        None => match word {
            "bare" => settings.configured = false,
            "cfg" => settings.configured = true,
            "names" => settings.struct_names = true,
            "sepmem" => settings.separate_tuple_members = true,
            "compact" => settings.compact_arrays = true,
            "noesc" => settings.escape_strings = false,
            "suffix" => settings.number_suffixes = true,
            _ => return Err(unknown()),
        },
        Some((name, value)) => match name {
            "nl" => settings.new_line = bytes(value)?,
            "ind" => settings.indentor = bytes(value)?,
            "sep" => settings.separator = bytes(value)?,
            "dl" => settings.depth_limit = number_or(value, "max")?.unwrap_or(usize::MAX),
            "ext" => settings.extensions = extensions(value)?,
            "def" => settings.default_extensions = extensions(value)?,
            "lim" => settings.recursion_limit = number_or(value, "none")?,
            "space" => settings.space = number_or(value, "none")?,
            _ => return Err(unknown()),
        },
    }
    Ok(())
}

fn read_call(word: &str) -> Result<Call, String> {
    let mut parts = word.split(':');
    let name = parts.next().unwrap_or_default();
    let args: Vec<&str> = parts.collect();
    let call = match (name, args.as_slice()) {
        ("bool", ["0"]) => Call::Bool(false),
        ("bool", ["1"]) => Call::Bool(true),
        ("i8", [n]) => Call::I8(number(n)?),
        ("i16", [n]) => Call::I16(number(n)?),
        ("i32", [n]) => Call::I32(number(n)?),
        ("i64", [n]) => Call::I64(number(n)?),
        ("u8", [n]) => Call::U8(number(n)?),
        ("u16", [n]) => Call::U16(number(n)?),
        ("u32", [n]) => Call::U32(number(n)?),
        ("u64", [n]) => Call::U64(number(n)?),
        ("f32", [bits, text @ ..]) => {
            let bits = u32::try_from(hex_number(bits)?).map_err(|_| bad_argument(word))?;
            Call::F32(f32::from_bits(bits), float_text(text, word)?)
        }
        ("f64", [bits, text @ ..]) => {
            Call::F64(f64::from_bits(hex_number(bits)?), float_text(text, word)?)
        }
        ("char", [c]) => Call::Char(u32::try_from(hex_number(c)?).map_err(|_| bad_argument(word))?),
        ("str", [text]) => Call::Str(bytes(text)?),
        ("bytes", [text]) => Call::Bytes(bytes(text)?),
        ("none", []) => Call::None,
        ("unit", []) => Call::Unit,
        ("ustruct", [name]) => Call::UnitStruct(bytes(name)?),
        ("uvar", [name, variant]) => Call::UnitVariant(bytes(name)?, bytes(variant)?),
        ("some", []) => Call::Some,
        ("ntstruct", [name]) => Call::NewtypeStruct(bytes(name)?),
        ("ntvar", [name, variant]) => Call::NewtypeVariant(bytes(name)?, bytes(variant)?),
        ("seq", [n]) => Call::Seq(number_or(n, "?")?),
        ("tup", [n]) => Call::Tuple(number(n)?),
        ("tstruct", [name, n]) => Call::TupleStruct(bytes(name)?, number(n)?),
        ("tvar", [name, variant, n]) => {
            Call::TupleVariant(bytes(name)?, bytes(variant)?, number(n)?)
        }
        ("end", []) => Call::End,
        _ => return Err(format!("no such call: {word}")),
    };
    Ok(call)
}

fn bad_argument(word: &str) -> String {
    format!("argument out of range: {word}")
}

fn float_text(parts: &[&str], word: &str) -> Result<Option<String>, String> {
    match parts {
        [] => Ok(None),
        [text] => Ok(Some((*text).into())),
        _ => Err(format!("no such call: {word}")),
    }
}

fn number<N: std::str::FromStr>(text: &str) -> Result<N, String> {
    text.parse()
        .map_err(|_| format!("no number of that range: {text}"))
}

fn number_or(text: &str, word: &str) -> Result<Option<usize>, String> {
    if text == word {
        Ok(None)
    } else {
        number(text).map(Some)
    }
}

fn hex_number(text: &str) -> Result<u64, String> {
    if text.is_empty() || !text.bytes().all(|b| b.is_ascii_hexdigit()) {
        return Err(format!("no hex number: {text}"));
    }
    u64::from_str_radix(text, 16).map_err(|_| format!("no hex number of that range: {text}"))
}

/// `=` and the text itself, or the hex of its bytes.
fn bytes(text: &str) -> Result<Vec<u8>, String> {
    if let Some(itself) = text.strip_prefix('=') {
        return Ok(itself.as_bytes().to_vec());
    }
    let digits: Option<Vec<u8>> = text
        .chars()
        .map(|c| c.to_digit(16).and_then(|d| u8::try_from(d).ok()))
        .collect();
    match digits {
        Some(digits) if digits.len() % 2 == 0 => Ok(digits
            .chunks(2)
            .map(|pair| pair[0] * 16 + pair[1])
            .collect()),
        _ => Err(format!("no hex of bytes: {text}")),
    }
}

fn extensions(letters: &str) -> Result<Extensions, String> {
    let mut set = Extensions::empty();
    for letter in letters.chars() {
        set |= match letter {
            'U' => Extensions::UNWRAP_NEWTYPES,
            'I' => Extensions::IMPLICIT_SOME,
            'E' => Extensions::EXPLICIT_STRUCT_NAMES,
            _ => return Err(format!("no such extension: {letter}")),
        };
    }
    Ok(set)
}
