//! Runs a script line on ron's `Serializer` and tells the result.
//!
//! serde's calls nest where a script's calls follow one another: an element is
//! written inside `serialize_element`, the value of a `Some` inside
//! `serialize_some`. So the values handed to serde are empty ones (`Element`,
//! `Held`) whose `serialize` goes on with the script at the next call.

use std::{
    cell::{Cell, RefCell},
    collections::HashSet,
    fmt,
    rc::Rc,
};

use ron::{
    ser::{PrettyConfig, Serializer},
    Error, Options,
};
use serde::ser::{
    self, Serialize, SerializeSeq, SerializeTuple, SerializeTupleStruct, SerializeTupleVariant,
};

use crate::script::{most_around, read_line, Call, Settings};

/// The result of a line.
pub enum Outcome {
    Accepted {
        text: String,
        lens: Vec<usize>,
        least: Option<i128>,
    },
    Refused {
        number: u32,
        text: String,
        lens: Vec<usize>,
    },
    Skipped(String),
}

impl fmt::Display for Outcome {
    fn fmt(&self, f: &mut fmt::Formatter<'_>) -> fmt::Result {
        match self {
            Outcome::Accepted { text, lens, least } => {
                let least = least.map_or("-".into(), |least| least.to_string());
                write!(f, "ok {} {} {least}", hex(text), commas(lens))
            }
            Outcome::Refused { number, text, lens } => {
                let accepted = lens.len().saturating_sub(1);
                write!(f, "err {number} {accepted} {} {}", hex(text), commas(lens))
            }
            Outcome::Skipped(why) => write!(f, "skip {why}"),
        }
    }
}

fn hex(text: &str) -> String {
    if text.is_empty() {
        return "-".into();
    }
    text.bytes().map(|b| format!("{b:02x}")).collect()
}

fn commas(lens: &[usize]) -> String {
    if lens.is_empty() {
        return "-".into();
    }
    let lens: Vec<String> = lens.iter().map(usize::to_string).collect();
    lens.join(",")
}

/// The names that serde was given: it wants them to live for ever.
#[derive(Default)]
pub struct Names(RefCell<HashSet<&'static str>>);

impl Names {
    fn keep(&self, name: &str) -> &'static str {
        let mut kept = self.0.borrow_mut();
        if let Some(name) = kept.get(name) {
            return name;
        }
        let name: &'static str = Box::leak(name.into());
        kept.insert(name);
        name
    }
}

/// Frames are calls inside calls, so many of them take much stack.
pub const MOST_FRAMES: usize = 4096;

/// The stack for a thread that runs scripts.
pub const STACK: usize = 256 << 20;

/// The text so far, and the space of the sink.
struct Text {
    text: String,
    space: Option<usize>,
}

#[derive(Clone)]
struct Sink(Rc<RefCell<Text>>);

impl Sink {
    fn len(&self) -> usize {
        self.0.borrow().text.len()
    }
}

impl fmt::Write for Sink {
    fn write_str(&mut self, s: &str) -> fmt::Result {
        let mut sink = self.0.borrow_mut();
        let taken = sink.text.len();
        if sink.space.is_some_and(|space| space - taken < s.len()) {
            return Err(fmt::Error);
        }
        sink.text.push_str(s);
        Ok(())
    }
}

/// The result line of a script line; none for an empty line or a remark.
pub fn answer(line: &[u8], names: &Names) -> Option<String> {
    if line.is_empty() || line.starts_with(b"#") {
        return None;
    }
    Some(match std::str::from_utf8(line) {
        Ok(line) => run_line(line, names).to_string(),
        Err(_) => "skip the line is not UTF-8".into(),
    })
}

pub fn run_line(line: &str, names: &Names) -> Outcome {
    match read_line(line) {
        Ok((settings, calls)) => run(&settings, &calls, names),
        Err(why) => Outcome::Skipped(why),
    }
}

fn run(settings: &Settings, calls: &[Call], names: &Names) -> Outcome {
    if most_around(calls) > MOST_FRAMES {
        return Outcome::Skipped(format!("more than {MOST_FRAMES} frames"));
    }
    let config = match config(settings) {
        Ok(config) => config,
        Err(why) => return Outcome::Skipped(why),
    };
    let mut options = Options::default().with_default_extension(settings.default_extensions);
    options.recursion_limit = settings.recursion_limit;

    let sink = Sink(Rc::new(RefCell::new(Text {
        text: String::new(),
        space: settings.space,
    })));
    let mut serializer = match Serializer::with_options(sink.clone(), config, &options) {
        Ok(serializer) => serializer,
        Err(error) => {
            return match number(&error) {
                Some(number) => Outcome::Refused {
                    number,
                    text: String::new(),
                    lens: Vec::new(),
                },
                None => Outcome::Skipped(error.to_string()),
            }
        }
    };

    let run = Run {
        calls,
        names,
        sink: &sink,
        begun: Cell::new(0),
        lens: RefCell::new(vec![sink.len()]),
        why: RefCell::new(None),
    };
    let result = run.document(&mut serializer);

    let mut lens = run.lens.into_inner();
    if let Some(why) = run.why.into_inner() {
        return Outcome::Skipped(why);
    }
    let Err(error) = result else {
        let least = settings
            .recursion_limit
            .map(|limit| limit as i128 - most_around(calls) as i128);
        let text = sink.0.borrow().text.clone();
        return Outcome::Accepted { text, lens, least };
    };
    let Some(number) = number(&error) else {
        return Outcome::Skipped(error.to_string());
    };
    // A frame that holds one value asks for the allowance of that value inside
    // its own call. Then the frame is open, and the call after it is refused.
    let accepted = lens.len() - 1;
    if error == Error::ExceededRecursionLimit && run.begun.get() > accepted {
        lens.push(sink.len());
        match calls.get(accepted + 1) {
            Some(Call::End) => return Outcome::Skipped(ENDED_EMPTY.into()),
            None => return Outcome::Skipped(LEFT_OPEN.into()),
            Some(_) => {}
        }
    }
    // What the refused call wrote before it was refused is left out.
    let text = sink.0.borrow().text[..lens[lens.len() - 1]].to_string();
    Outcome::Refused { number, text, lens }
}

const ENDED_EMPTY: &str = "a frame for one value ended empty: ron has no such call";
const FILLED: &str = "a second value in a place for one: ron has no such call";
const LEFT_OPEN: &str = "a frame is open at the end: ron has no such document";
const NO_VALUE: &str = "no value: ron has no such document";
const NO_FRAME: &str = "an end without a frame: ron has no such call";

fn config(settings: &Settings) -> Result<Option<PrettyConfig>, String> {
    if !settings.configured {
        return Ok(None);
    }
    let text = |bytes: &[u8]| {
        String::from_utf8(bytes.to_vec()).map_err(|_| "a layout string is not UTF-8".to_string())
    };
    let config = PrettyConfig::new()
        .new_line(text(&settings.new_line)?)
        .indentor(text(&settings.indentor)?)
        .separator(text(&settings.separator)?)
        .depth_limit(settings.depth_limit)
        .struct_names(settings.struct_names)
        .separate_tuple_members(settings.separate_tuple_members)
        .compact_arrays(settings.compact_arrays)
        .escape_strings(settings.escape_strings)
        .number_suffixes(settings.number_suffixes)
        .extensions(settings.extensions);
    Ok(Some(config))
}

/// The number of a refusal.
fn number(error: &Error) -> Option<u32> {
    match error {
        Error::Message(text) => match text.as_str() {
            "Invalid non-whitespace `PrettyConfig::new_line`" => Some(1),
            "Invalid non-whitespace `PrettyConfig::indentor`" => Some(2),
            "Invalid non-whitespace `PrettyConfig::separator`" => Some(3),
            _ => None,
        },
        Error::InvalidIdentifier(_) => Some(6),
        Error::ExceededRecursionLimit => Some(16),
        Error::Fmt => Some(19),
        _ => None,
    }
}

/// A document under way.
struct Run<'a> {
    calls: &'a [Call],
    names: &'a Names,
    sink: &'a Sink,
    /// How many calls ron was given, ends aside: one more than the last one's place.
    begun: Cell<usize>,
    /// The text's length after beginning and after each accepted call.
    lens: RefCell<Vec<usize>>,
    /// Why the line cannot be taken.
    why: RefCell<Option<String>>,
}

/// An element: its `serialize` makes the next value or opening.
struct Element<'a>(&'a Run<'a>);

impl Serialize for Element<'_> {
    fn serialize<S: ser::Serializer>(&self, serializer: S) -> Result<S::Ok, S::Error> {
        self.0.value(serializer)
    }
}

/// The one value of a frame: when it is asked for, the frame is open.
struct Held<'a>(&'a Run<'a>);

impl Serialize for Held<'_> {
    fn serialize<S: ser::Serializer>(&self, serializer: S) -> Result<S::Ok, S::Error> {
        let run = self.0;
        run.accept();
        match run.next() {
            None => return Err(run.skip(LEFT_OPEN)),
            Some(Call::End) => return Err(run.skip(ENDED_EMPTY)),
            Some(_) => {}
        }
        let ok = run.value(serializer)?;
        match run.next() {
            None => Err(run.skip(LEFT_OPEN)),
            Some(Call::End) => Ok(ok),
            Some(_) => Err(run.skip(FILLED)),
        }
    }
}

/// Makes the elements of a frame and its end.
macro_rules! elements {
    ($run:expr, $frame:expr, $trait:ident :: $put:ident) => {{
        let mut frame = $frame;
        $run.accept();
        loop {
            match $run.next() {
                None => break Err($run.skip(LEFT_OPEN)),
                Some(Call::End) => {
                    let ok = $trait::end(frame)?;
                    $run.accept();
                    break Ok(ok);
                }
                Some(_) => $trait::$put(&mut frame, &Element($run))?,
            }
        }
    }};
}

impl Run<'_> {
    /// The next call of the script. The calls before it are accepted.
    fn next(&self) -> Option<&Call> {
        self.calls.get(self.lens.borrow().len() - 1)
    }

    fn accept(&self) {
        self.lens.borrow_mut().push(self.sink.len());
    }

    fn skip<E: ser::Error>(&self, why: impl Into<String>) -> E {
        *self.why.borrow_mut() = Some(why.into());
        E::custom("skip")
    }

    fn name<E: ser::Error>(&self, name: &[u8]) -> Result<&'static str, E> {
        match std::str::from_utf8(name) {
            Ok(name) => Ok(self.names.keep(name)),
            Err(_) => Err(self.skip("a name is not UTF-8: ron has no such call")),
        }
    }

    fn document(&self, serializer: &mut Serializer<Sink>) -> Result<(), Error> {
        match self.next() {
            None => return Err(self.skip(NO_VALUE)),
            Some(Call::End) => return Err(self.skip(NO_FRAME)),
            Some(_) => {}
        }
        self.value(serializer)?;
        match self.next() {
            None => Ok(()),
            Some(Call::End) => Err(self.skip(NO_FRAME)),
            Some(_) => Err(self.skip(FILLED)),
        }
    }

    /// Makes the next value, or opens the next frame and makes all up to its end.
    fn value<S: ser::Serializer>(&self, ser: S) -> Result<S::Ok, S::Error> {
        let at = self.lens.borrow().len() - 1;
        let call = &self.calls[at];
        self.begun.set(at + 1);
        let ok = match call {
            Call::Bool(v) => ser.serialize_bool(*v)?,
            Call::I8(v) => ser.serialize_i8(*v)?,
            Call::I16(v) => ser.serialize_i16(*v)?,
            Call::I32(v) => ser.serialize_i32(*v)?,
            Call::I64(v) => ser.serialize_i64(*v)?,
            Call::U8(v) => ser.serialize_u8(*v)?,
            Call::U16(v) => ser.serialize_u16(*v)?,
            Call::U32(v) => ser.serialize_u32(*v)?,
            Call::U64(v) => ser.serialize_u64(*v)?,
            Call::F32(v, text) => {
                if text.as_ref().is_some_and(|text| *text != float_text32(*v)) {
                    return Err(self.skip("a float's text is not what its bits print"));
                }
                ser.serialize_f32(*v)?
            }
            Call::F64(v, text) => {
                if text.as_ref().is_some_and(|text| *text != float_text64(*v)) {
                    return Err(self.skip("a float's text is not what its bits print"));
                }
                ser.serialize_f64(*v)?
            }
            Call::Char(v) => match char::from_u32(*v) {
                Some(c) => ser.serialize_char(c)?,
                None => return Err(self.skip("no scalar value: ron has no such call")),
            },
            Call::Str(v) => match std::str::from_utf8(v) {
                Ok(text) => ser.serialize_str(text)?,
                Err(_) => return Err(self.skip("text is not UTF-8: ron has no such call")),
            },
            Call::Bytes(v) => ser.serialize_bytes(v)?,
            Call::None => ser.serialize_none()?,
            Call::Unit => ser.serialize_unit()?,
            Call::UnitStruct(name) => ser.serialize_unit_struct(self.name(name)?)?,
            Call::UnitVariant(name, variant) => {
                ser.serialize_unit_variant(self.name(name)?, 0, self.name(variant)?)?
            }
            Call::Some => ser.serialize_some(&Held(self))?,
            Call::NewtypeStruct(name) => {
                if name == b"$ron::private::RawValue" {
                    return Err(self.skip("the name of the raw value is not compared"));
                }
                ser.serialize_newtype_struct(self.name(name)?, &Held(self))?
            }
            Call::NewtypeVariant(name, variant) => ser.serialize_newtype_variant(
                self.name(name)?,
                0,
                self.name(variant)?,
                &Held(self),
            )?,
            Call::Seq(len) => {
                return elements!(
                    self,
                    ser.serialize_seq(*len)?,
                    SerializeSeq::serialize_element
                )
            }
            Call::Tuple(len) => {
                return elements!(
                    self,
                    ser.serialize_tuple(*len)?,
                    SerializeTuple::serialize_element
                )
            }
            Call::TupleStruct(name, len) => {
                return elements!(
                    self,
                    ser.serialize_tuple_struct(self.name(name)?, *len)?,
                    SerializeTupleStruct::serialize_field
                )
            }
            Call::TupleVariant(name, variant, len) => {
                return elements!(
                    self,
                    ser.serialize_tuple_variant(self.name(name)?, 0, self.name(variant)?, *len)?,
                    SerializeTupleVariant::serialize_field
                )
            }
            Call::End => return Err(self.skip(NO_FRAME)),
        };
        // The value, or the end of a frame that holds one.
        self.accept();
        Ok(ok)
    }
}

/// What the other program gets for a float: what `{:?}` prints, with a minus
/// for a negative NaN.
pub fn float_text32(value: f32) -> String {
    let minus = value.is_nan() && value.is_sign_negative();
    format!("{}{value:?}", if minus { "-" } else { "" })
}

pub fn float_text64(value: f64) -> String {
    let minus = value.is_nan() && value.is_sign_negative();
    format!("{}{value:?}", if minus { "-" } else { "" })
}
