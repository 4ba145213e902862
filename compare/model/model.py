#!/usr/bin/env python3
"""The definitions of the writer as a plain program.

Each function below has the name of a definition in crates/*/specs (but for a
few that Python's own words or the order of lists ask for) and is written clause
by clause after it, file by file, so that the two can be read side by side.
Bytes are `bytes`, characters a list of their numbers, a kind, a refusal or a
constructor is its name, an Option is a value or None.

    model.py TABLE < script > results     the results of a script's lines
    model.py --trace TABLE < script       every answer by itself, for reading
    model.py --read TABLE < script        as the first, and each finished text
                                          is read and held against its calls
"""
import sys
from typing import NamedTuple, Optional

# ---------------------------------------------------------------- chars

# Utf8


def decode(s):
    """The scalar values that the bytes spell (RFC 3629), or None."""
    try:
        return [ord(c) for c in s.decode("utf-8", "strict")]
    except UnicodeDecodeError:
        return None


def utf8(s):
    return decode(s) is not None


def decoded(s):
    cs = decode(s)
    return [] if cs is None else cs


def scalar(c):
    return 0 <= c <= 0xD7FF or 0xE000 <= c <= 0x10FFFF


def encode(c):
    return chr(c).encode("utf-8")


def encodes(cs):
    return b"".join(encode(c) for c in cs)


# Blanks

blanks = [0x20, 0x09, 0x0A, 0x0B, 0x0C, 0x0D, 0x85, 0x200E, 0x200F, 0x2028, 0x2029]


def blank(c):
    return c in blanks


# Tables


def letter(c):
    return 0x41 <= c <= 0x5A or 0x61 <= c <= 0x7A


def digit(c):
    return 0x30 <= c <= 0x39


def printable(c):
    return 0x20 <= c <= 0x7E


# ---------------------------------------------------------------- words

# Classes


def quoting(c):
    return c in (0x22, 0x27, 0x5C)


def raw_char(continues, c):
    return continues(c) or c in (0x2E, 0x2B, 0x2D)


def text_of(p, s):
    return utf8(s) and all(p(c) for c in decoded(s))


# Numerals


def numeral(base, n):
    return (b"%x" if base == 16 else b"%d") % n


# Escapes


def code(c):
    return b"\\u{" + numeral(16, c) + b"}"


def escape(shown, c):
    if c == 0x00:
        return b"\\0"
    if c == 0x09:
        return b"\\t"
    if c == 0x0A:
        return b"\\n"
    if c == 0x0D:
        return b"\\r"
    if quoting(c):
        return bytes([0x5C, c])
    if shown(c):
        return encode(c)
    return code(c)


def escaped_str(shown, cs):
    return b'"' + b"".join(escape(shown, c) for c in cs) + b'"'


# RawText


def longest_hashes(cs):
    longest = run = 0
    for c in cs:
        run = run + 1 if c == 0x23 else 0
        longest = max(longest, run)
    return longest


def holds_quote(cs):
    return any(c in (0x22, 0x5C) for c in cs)


def quoted(x):
    return b'"' + x + b'"'


def fenced(n, x):
    return b"#" * (n + 1) + quoted(x) + b"#" * (n + 1)


def unescaped_or_raw_str(cs):
    if holds_quote(cs):
        return b"r" + fenced(longest_hashes(cs), encodes(cs))
    return quoted(encodes(cs))


# Names

reserved_words = [
    [ord(c) for c in w]
    for w in "true false Some None inf inff32 inff64 NaN NaNf32 NaNf64".split()
]


def reserved(cs):
    return cs in reserved_words


def name(continues, cs):
    return cs != [] and all(raw_char(continues, c) for c in cs)


def first_char(starts, c):
    return c == 0x5F or starts(c)


def bare(starts, continues, cs):
    if cs == []:
        return False
    return first_char(starts, cs[0]) and all(continues(c) for c in cs[1:]) and not reserved(cs)


def identifier(starts, continues, cs):
    return encodes(cs) if bare(starts, continues, cs) else b"r#" + encodes(cs)


# Refusals of words: one test after another, the first that refuses

longest_argument = 65535


def refused_unless(holds, e):
    return None if holds else e


def refused_if(holds, e):
    return e if holds else None


def first(*tests):
    """Each test is a function, so that a later one is made only if needed."""
    for test in tests:
        e = test()
        if e is not None:
            return e
    return None


def text_refusal(s):
    return first(
        lambda: refused_unless(len(s) <= longest_argument, "TooLong"),
        lambda: refused_unless(utf8(s), "NotUtf8"),
    )


def name_refusal(continues, s):
    return first(
        lambda: text_refusal(s),
        lambda: refused_unless(name(continues, decoded(s)), "InvalidIdentifier"),
    )


# ---------------------------------------------------------------- literals

# Integers


def suffix_if(on, suffix):
    return suffix if on else b""


def integer(v, on, suffix):
    return (b"-" if v < 0 else b"") + numeral(10, abs(v)) + suffix_if(on, suffix)


# Floats


def past_digits(s):
    i = 0
    while i < len(s) and digit(s[i]):
        i += 1
    return s[i:]


def digits(s):
    return s != b"" and digit(s[0]) and past_digits(s[1:]) == b""


def exponent(s):
    if s == b"":
        return False
    return digits(s[1:]) if s[0] == 0x2D else digits(s)


def fraction_end(s):
    return True if s == b"" else s[0] == 0x65 and exponent(s[1:])


def fraction(s):
    return s != b"" and digit(s[0]) and fraction_end(past_digits(s[1:]))


def behind_integer(s):
    if s == b"":
        return False
    return fraction(s[1:]) if s[0] == 0x2E else s[0] == 0x65 and exponent(s[1:])


def decimal(s):
    if s == b"":
        return False
    if s[0] == 0x30:
        return behind_integer(s[1:])
    return digit(s[0]) and behind_integer(past_digits(s[1:]))


def unsigned(s):
    return s == b"NaN" or s == b"inf" or decimal(s)


def float_text(s):
    if s == b"":
        return False
    return unsigned(s[1:]) if s[0] == 0x2D else unsigned(s)


def float_refusal(s):
    return first(
        lambda: bytes_refusal(s),
        lambda: refused_unless(float_text(s), "NotFloat"),
    )


def float_(on, suffix, s):
    return s + suffix_if(on, suffix)


# Characters


def character(c):
    return b"'" + (bytes([0x5C, c]) if c in (0x27, 0x5C) else encode(c)) + b"'"


def char_refusal(n):
    return refused_unless(scalar(n), "NotScalar")


# Bytes


def byte_escape(b):
    if b == 0x09:
        return b"\\t"
    if b == 0x0A:
        return b"\\n"
    if b == 0x0D:
        return b"\\r"
    if quoting(b):
        return bytes([0x5C, b])
    if printable(b):
        return bytes([b])
    return b"\\x%02x" % b


def escaped_byte_str(bs):
    return b'b"' + b"".join(byte_escape(b) for b in bs) + b'"'


def unescaped_or_raw_byte_str(bs):
    return b"b" + unescaped_or_raw_str(decoded(bs)) if utf8(bs) else escaped_byte_str(bs)


def bytes_refusal(bs):
    return refused_unless(len(bs) <= longest_argument, "TooLong")


# ---------------------------------------------------------------- grammar

# Items, Readings

opening = {"square": b"[", "round": b"("}
closing = {"square": b"]", "round": b")"}

extension_name = {
    "unwrap_newtypes": b"unwrap_newtypes",
    "implicit_some": b"implicit_some",
    "explicit_struct_names": b"explicit_struct_names",
}

# ---------------------------------------------------------------- model

# Refusals

number = {
    "NewLineNotBlank": 1,
    "IndentorNotBlank": 2,
    "SeparatorNotBlank": 3,
    "LayoutTooLong": 4,
    "InvalidIdentifier": 6,
    "NotUtf8": 7,
    "NotScalar": 8,
    "NotFloat": 9,
    "TooLong": 10,
    "Filled": 11,
    "WrongTicket": 12,
    "EndedEmpty": 13,
    "Closed": 14,
    "Unfinished": 15,
    "ExceededRecursionLimit": 16,
    "TooManyFrames": 17,
    "TooManyElements": 18,
    "NoSpace": 19,
}

# Settings: a set of extensions is a set of their names


class PrettyConfig(NamedTuple):
    depth_limit: int
    new_line: bytes
    indentor: bytes
    separator: bytes
    struct_names: bool
    separate_tuple_members: bool
    extensions: frozenset
    compact_arrays: bool
    escape_strings: bool
    number_suffixes: bool


class Settings(NamedTuple):
    default_extensions: frozenset
    recursion_limit: Optional[int]
    config: Optional[PrettyConfig]


def configured(config, e):
    return False if config is None else e in config.extensions


def on(s, e):
    return e in s.default_extensions or configured(s.config, e)


def configured_names(config):
    return False if config is None else config.struct_names


def names(s):
    return configured_names(s.config) or on(s, "explicit_struct_names")


def suffixed(config):
    return False if config is None else config.number_suffixes


def escaped(config):
    return True if config is None else config.escape_strings


# Requests: a value, an opening and a request are tuples of a constructor's name and its arguments


class Ticket(NamedTuple):
    kind: str
    level: int


kind_of_name = {
    "some": "Some",
    "newtype_struct": "NewtypeStruct",
    "newtype_variant": "NewtypeVariant",
    "seq": "Seq",
    "tuple": "Tuple",
    "tuple_struct": "TupleStruct",
    "tuple_variant": "TupleVariant",
}


def kind_of(o):
    return kind_of_name[o[0]]


def announced(o):
    if o[0] in ("some", "newtype_struct", "newtype_variant"):
        return None
    return o[-1]


call_of_name = {"put": "value", "start": "opening", "end": "ending", "abandon": "abandoning", "finish": "finishing"}


def call_of(r):
    """A request without its ticket."""
    if r[0] in ("put", "start"):
        return (call_of_name[r[0]], r[2])
    return (call_of_name[r[0]],)


# States


class Table(NamedTuple):
    starts: object
    continues: object
    shown: object


class Frame(NamedTuple):
    kind: str
    elements: int


class Layout(NamedTuple):
    indent: int
    is_empty: Optional[bool]


class Allowance(NamedTuple):
    left: int
    least: int


class State(NamedTuple):
    table: Table
    settings: Settings
    closed: bool
    frames: list  # here the innermost last
    filled: bool
    layout: Layout
    implicit_some_depth: int
    allowance: Optional[Allowance]
    text: bytes
    space: int


def fresh(k):
    return Frame(k, 0)


def counted(frames):
    if frames == []:
        return []
    f = frames[-1]
    return frames[:-1] + [Frame(f.kind, f.elements + 1)]


def below(frames):
    return frames[:-1]


def monus(a, b):
    return max(a - b, 0)


def taken(frames, a):
    if frames == [] or a is None:
        return a
    return Allowance(monus(a.left, 1), min(a.least, monus(a.left, 1)))


def returned(frames, a):
    if frames == [] or a is None:
        return a
    return Allowance(a.left + 1, a.least)


def touched(frames, a):
    if frames == [] or a is None:
        return a
    return Allowance(a.left, min(a.least, monus(a.left, 1)))


# Beginnings

longest_layout = 32


def string_refusal(e, s):
    return first(
        lambda: refused_unless(len(s) <= longest_layout, "LayoutTooLong"),
        lambda: refused_unless(text_of(blank, s), e),
    )


def layout_refusal(config):
    if config is None:
        return None
    return first(
        lambda: string_refusal("NewLineNotBlank", config.new_line),
        lambda: string_refusal("IndentorNotBlank", config.indentor),
        lambda: string_refusal("SeparatorNotBlank", config.separator),
    )


def enabling(defaults, c, e):
    if e in c.extensions and e not in defaults:
        return b"#![enable(" + extension_name[e] + b")]" + c.new_line
    return b""


def header(defaults, config):
    if config is None:
        return b""
    return (
        enabling(defaults, config, "unwrap_newtypes")
        + enabling(defaults, config, "implicit_some")
        + enabling(defaults, config, "explicit_struct_names")
    )


def header_of(s):
    return header(s.default_extensions, s.config)


def beginning_refusal(s, space):
    return first(
        lambda: layout_refusal(s.config),
        lambda: refused_unless(len(header_of(s)) <= space, "NoSpace"),
    )


def whole_limit(limit):
    return None if limit is None else Allowance(limit, limit)


def new(t, s, closed, text, space):
    return State(
        table=t,
        settings=s,
        closed=closed,
        frames=[],
        filled=False,
        layout=Layout(0, None),
        implicit_some_depth=0,
        allowance=whole_limit(s.recursion_limit),
        text=text,
        space=space,
    )


def begun(t, s, space):
    if beginning_refusal(s, space) is None:
        return new(t, s, False, header_of(s), monus(space, len(header_of(s))))
    return new(t, s, True, b"", space)


# Heads: `on` is a function of an extension's name


def silent(on, k):
    if k == "Some":
        return on("implicit_some")
    if k == "NewtypeStruct":
        return on("unwrap_newtypes")
    return False


def bracket(k):
    return "square" if k == "Seq" else "round"


def if_named(names, name):
    return ("named", decoded(name)) if names else ("headless",)


def head(names, o):
    if o[0] == "some":
        return ("some_head",)
    if o[0] in ("newtype_struct", "tuple_struct"):
        return if_named(names, o[1])
    if o[0] in ("newtype_variant", "tuple_variant"):
        return ("named", decoded(o[2]))
    return ("headless",)


def head_bytes(t, h):
    if h[0] == "headless":
        return b""
    if h[0] == "named":
        return identifier(t.starts, t.continues, h[1])
    return b"Some"


# Layouts


def widened(c, k):
    if k in ("Some", "NewtypeStruct", "NewtypeVariant"):
        return False
    if k == "Seq":
        return not c.compact_arrays
    return c.separate_tuple_members


def wide(config, k):
    return False if config is None else widened(config, k)


def near(config, indent):
    return False if config is None else indent <= config.depth_limit


def lined(config, k, indent):
    return wide(config, k) and near(config, indent)


def new_line(config):
    return b"" if config is None else config.new_line


def indentor(config):
    return b"" if config is None else config.indentor


def separator(config):
    return b"" if config is None else config.separator


def after_comma(config, lines):
    return new_line(config) if lines else separator(config)


def parted(config, lines, elements):
    return b"" if elements == 0 else b"," + after_comma(config, lines)


def indented(config, lines, indent):
    return indent * indentor(config) if lines else b""


def before(config, l, frames):
    if frames == []:
        return b""
    f = frames[-1]
    return parted(config, lined(config, f.kind, l.indent), f.elements) + indented(
        config, lined(config, f.kind, l.indent), l.indent
    )


def told(length, e):
    return e if length is None else length == 0


def empty(l):
    return False if l.is_empty is None else l.is_empty


def entered(config, k, length, l):
    return Layout(l.indent + 1, told(length, l.is_empty)) if wide(config, k) else l


def behind_opening(config, k, l):
    return new_line(config) if lined(config, k, l.indent) and not empty(l) else b""


def trailing(config, lines, elements):
    return b"," + new_line(config) if lines and elements != 0 else b""


def before_closing(config, l, f):
    return trailing(config, lined(config, f.kind, l.indent), f.elements) + (
        monus(l.indent, 1) * indentor(config)
        if lined(config, f.kind, l.indent) and not empty(l)
        else b""
    )


def left(config, k, l):
    return Layout(monus(l.indent, 1), None) if wide(config, k) else l


# Spellings


def none_bytes(depth):
    return depth * b"Some(" + b"None" + depth * b")"


float_suffix = {"F32": b"f32", "F64": b"f64"}


def value_bytes(t, s, depth, v):
    kind, *a = v
    if kind == "none":
        return none_bytes(depth)
    if kind == "a_bool":
        return b"true" if a[0] else b"false"
    if kind == "an_integer":
        return integer(a[1], suffixed(s.config), a[0].encode())
    if kind == "a_float":
        return float_(suffixed(s.config), float_suffix[a[0]], a[1])
    if kind == "a_char":
        return character(a[0])
    if kind == "a_str":
        return escaped_str(t.shown, decoded(a[0])) if escaped(s.config) else unescaped_or_raw_str(decoded(a[0]))
    if kind == "bytes":
        return escaped_byte_str(a[0]) if escaped(s.config) else unescaped_or_raw_byte_str(a[0])
    if kind == "unit":
        return b"()"
    if kind == "unit_struct":
        return identifier(t.starts, t.continues, decoded(a[0])) if names(s) else b"()"
    if kind == "unit_variant":
        return identifier(t.starts, t.continues, decoded(a[1]))


def on_in(s):
    return lambda e: on(s, e)


def opening_bytes(t, s, l, o):
    if silent(on_in(s), kind_of(o)):
        return b""
    return (
        head_bytes(t, head(names(s), o))
        + opening[bracket(kind_of(o))]
        + behind_opening(s.config, kind_of(o), entered(s.config, kind_of(o), announced(o), l))
    )


def closing_bytes(s, l, f):
    if silent(on_in(s), f.kind):
        return b""
    return before_closing(s.config, l, f) + closing[bracket(f.kind)]


def end_bytes(s, l, frames):
    return b"" if frames == [] else closing_bytes(s, l, frames[-1])


def lead(s):
    return before(s.settings.config, s.layout, s.frames)


def appended(s, r):
    if r[0] == "put":
        return lead(s) + value_bytes(s.table, s.settings, s.implicit_some_depth, r[2])
    if r[0] == "start":
        return lead(s) + opening_bytes(s.table, s.settings, s.layout, r[2])
    if r[0] == "end":
        return end_bytes(s.settings, s.layout, s.frames)
    return b""


# Places


def single(k):
    return k in ("Some", "NewtypeStruct", "NewtypeVariant")


def is_of(k, level, t):
    return t.kind == k and t.level == level


def shows(frames, t):
    if frames == []:
        return t is None
    return t is not None and is_of(frames[-1].kind, len(frames), t)


most_elements = 65535
most_frames = 256


def has_value(frames, filled):
    if frames == []:
        return filled
    return single(frames[-1].kind) and frames[-1].elements != 0


def takes_element(frames):
    return True if frames == [] else frames[-1].elements < most_elements


def allowed(frames, a):
    return True if frames == [] or a is None else 0 < a.left


def admission(s, t):
    return first(
        lambda: refused_if(s.closed, "Closed"),
        lambda: refused_unless(shows(s.frames, t), "WrongTicket"),
        lambda: refused_if(has_value(s.frames, s.filled), "Filled"),
        lambda: refused_unless(takes_element(s.frames), "TooManyElements"),
        lambda: refused_unless(allowed(s.frames, s.allowance), "ExceededRecursionLimit"),
    )


def names_refusal(t, name, variant):
    return first(
        lambda: name_refusal(t.continues, name),
        lambda: name_refusal(t.continues, variant),
    )


def value_refusal(t, v):
    kind, *a = v
    if kind == "a_float":
        return float_refusal(a[1])
    if kind == "a_char":
        return char_refusal(a[0])
    if kind == "a_str":
        return text_refusal(a[0])
    if kind == "bytes":
        return bytes_refusal(a[0])
    if kind == "unit_struct":
        return name_refusal(t.continues, a[0])
    if kind == "unit_variant":
        return names_refusal(t, a[0], a[1])
    return None


def opening_refusal(t, o):
    if o[0] in ("newtype_struct", "tuple_struct"):
        return name_refusal(t.continues, o[1])
    if o[0] in ("newtype_variant", "tuple_variant"):
        return names_refusal(t, o[1], o[2])
    return None


def depth_refusal(s):
    return refused_unless(len(s.frames) < most_frames, "TooManyFrames")


def space_refusal(s, r):
    return refused_unless(len(appended(s, r)) <= s.space, "NoSpace")


def lacks_value(frames):
    return False if frames == [] else single(frames[-1].kind) and frames[-1].elements == 0


def unfinished(frames, filled):
    return not filled if frames == [] else True


def refusal(s, r):
    if r[0] == "put":
        return first(
            lambda: admission(s, r[1]),
            lambda: value_refusal(s.table, r[2]),
            lambda: space_refusal(s, r),
        )
    if r[0] == "start":
        return first(
            lambda: admission(s, r[1]),
            lambda: opening_refusal(s.table, r[2]),
            lambda: depth_refusal(s),
            lambda: space_refusal(s, r),
        )
    if r[0] == "end":
        return first(
            lambda: refused_if(s.closed, "Closed"),
            lambda: refused_unless(shows(s.frames, r[1]), "WrongTicket"),
            lambda: refused_if(lacks_value(s.frames), "EndedEmpty"),
            lambda: space_refusal(s, r),
        )
    if r[0] == "abandon":
        return refused_if(s.closed, "Closed")
    if r[0] == "finish":
        return first(
            lambda: refused_if(s.closed, "Closed"),
            lambda: refused_if(unfinished(s.frames, s.filled), "Unfinished"),
        )


# Steps: `_replace` names the fields that change


def depth_past(v, depth):
    return 0 if v[0] == "none" else depth


def depth_inside(s, k, depth):
    if k == "Some":
        return depth + 1 if silent(on_in(s), k) else depth
    if k == "NewtypeStruct":
        return depth if silent(on_in(s), k) else 0
    return 0


def depth_outside(s, k, depth):
    if k == "Some":
        return 0 if silent(on_in(s), k) else depth
    return depth


def with_value(s, x, v):
    return s._replace(
        frames=counted(s.frames),
        filled=True,
        implicit_some_depth=depth_past(v, s.implicit_some_depth),
        allowance=touched(s.frames, s.allowance),
        text=s.text + x,
        space=monus(s.space, len(x)),
    )


def with_frame(s, x, o):
    return s._replace(
        frames=counted(s.frames) + [fresh(kind_of(o))],
        filled=True,
        layout=entered(s.settings.config, kind_of(o), announced(o), s.layout),
        implicit_some_depth=depth_inside(s.settings, kind_of(o), s.implicit_some_depth),
        allowance=taken(s.frames, s.allowance),
        text=s.text + x,
        space=monus(s.space, len(x)),
    )


def without_frame(s, x, k):
    return s._replace(
        frames=below(s.frames),
        layout=left(s.settings.config, k, s.layout),
        implicit_some_depth=depth_outside(s.settings, k, s.implicit_some_depth),
        allowance=returned(below(s.frames), s.allowance),
        text=s.text + x,
        space=monus(s.space, len(x)),
    )


def shut(s):
    return s._replace(closed=True)


def effect(s, r):
    if r[0] == "put":
        return with_value(s, appended(s, r), r[2])
    if r[0] == "start":
        return with_frame(s, appended(s, r), r[2])
    if r[0] == "end":
        return without_frame(s, appended(s, r), r[1].kind)
    return shut(s)


def least_of(a):
    return None if a is None else a.least


def yield_(s, r):
    if r[0] == "start":
        return ("opened", Ticket(kind_of(r[2]), len(s.frames) + 1))
    if r[0] == "finish":
        return ("finished", len(s.text), least_of(s.allowance))
    return ("done",)


def refuse(s, r, e):
    if r[0] == "end" and not s.closed:
        return ("handed_back", e, r[1])
    return ("refused", e)


def next_and_answer(s, r):
    """`next` and `answer`, with the refusal tested once."""
    e = refusal(s, r)
    if e is None:
        return effect(s, r), yield_(s, r)
    return s, refuse(s, r, e)


# Making: a tree is a tuple of a constructor's name and what it holds


class Style(NamedTuple):
    on: object
    names: bool
    suffixes: bool


class Held(NamedTuple):
    opener: tuple
    items: list  # here the last one last


class Made(NamedTuple):
    frames: list  # here the innermost last
    top: list


def in_somes(n, t):
    for _ in range(n):
        t = ("a_group", ("some_head",), [t])
    return t


def silent_somes(on, held):
    somes = 0
    for h in reversed(held):
        if not silent(on, kind_of(h.opener)):
            break
        somes += kind_of(h.opener) == "Some"
    return somes


unit_tree = ("a_group", ("headless",), [])


def codes(x):
    return list(x)


def float_tree(x):
    return ("a_number", codes(x)) if digit(x[0]) or x[0] == 0x2D else ("a_word", codes(x))


def item(y, held, v):
    kind, *a = v
    if kind == "none":
        return in_somes(silent_somes(y.on, held), ("a_word", codes(b"None")))
    if kind == "a_bool":
        return ("a_word", codes(b"true" if a[0] else b"false"))
    if kind == "an_integer":
        return ("a_number", codes(integer(a[1], y.suffixes, a[0].encode())))
    if kind == "a_float":
        return float_tree(float_(y.suffixes, float_suffix[a[0]], a[1]))
    if kind == "a_char":
        return ("a_character", a[0])
    if kind == "a_str":
        return ("a_text", decoded(a[0]))
    if kind == "bytes":
        return ("a_byte_string", codes(a[0]))
    if kind == "unit":
        return unit_tree
    if kind == "unit_struct":
        return ("a_name", decoded(a[0])) if y.names else unit_tree
    if kind == "unit_variant":
        return ("a_name", decoded(a[1]))


def grouped(b, h, ts):
    return ("a_list", ts) if b == "square" else ("a_group", h, ts)


def result(y, h):
    if silent(y.on, kind_of(h.opener)):
        return h.items
    return [grouped(bracket(kind_of(h.opener)), head(y.names, h.opener), h.items)]


def add(ts, held, top):
    if held == []:
        return Made([], top + ts)
    h = held[-1]
    return Made(held[:-1] + [Held(h.opener, h.items + ts)], top)


def make(y, m, c):
    if c[0] == "value":
        return add([item(y, m.frames, c[1])], m.frames, m.top)
    if c[0] == "opening":
        return Made(m.frames + [Held(c[1], [])], m.top)
    if c[0] == "ending":
        if m.frames == []:
            return None
        return add(result(y, m.frames[-1]), m.frames[:-1], m.top)
    return m


def made(y, calls):
    """The calls in the order in which they were made."""
    m = Made([], [])
    for c in calls:
        m = None if m is None else make(y, m, c)
    return m


def one_whole_value(y, calls):
    m = made(y, calls)
    return (
        all(c[0] in ("value", "opening", "ending") for c in calls)
        and m is not None
        and m.frames == []
        and len(m.top) == 1
    )


# Runs


def style_of(s):
    return Style(on_in(s), names(s), suffixed(s.config))


# ---------------------------------------------------------------- a reader, after the specs of `grammar`


class NoReading(Exception):
    pass


def need(holds):
    if not holds:
        raise NoReading


class Reader:
    """Reads one text. Where the rules allow a token, it takes it: no two rules begin alike."""

    def __init__(self, table, cs):
        self.t, self.cs, self.i = table, cs, 0

    def at(self, word, skip=0):
        i = self.i + skip
        return self.cs[i : i + len(word)] == [ord(c) for c in word]

    def take(self, word):
        need(self.at(word))
        self.i += len(word)

    def peek(self):
        return self.cs[self.i] if self.i < len(self.cs) else -1

    def skip_blanks(self):
        while self.i < len(self.cs) and blank(self.cs[self.i]):
            self.i += 1

    def run(self, first, following):
        """The longest run of `following` from one of `first`."""
        start = self.i
        need(self.i < len(self.cs) and first(self.cs[self.i]))
        while self.i < len(self.cs) and following(self.cs[self.i]):
            self.i += 1
        need(self.i > start)
        return self.cs[start : self.i]

    def tokens(self, words):
        for w in words:
            self.skip_blanks()
            self.take(w)

    def whole(self):
        while True:
            self.skip_blanks()
            if not self.at("#"):
                break
            self.tokens(["#", "!", "[", "enable", "("])
            self.skip_blanks()
            self.take(next((n.decode() for n in extension_name.values() if self.at(n.decode())), "?"))
            self.tokens([")", "]"])
        t = self.item()
        self.skip_blanks()
        need(self.i == len(self.cs))
        return t

    def short_escape(self, c):
        if c in (0x22, 0x27, 0x5C):
            return c
        return {0x30: 0x00, 0x74: 0x09, 0x6E: 0x0A, 0x72: 0x0D}.get(c)

    def quoted(self, of_bytes):
        x = []
        while not self.at('"'):
            need(self.i < len(self.cs))
            if not self.at("\\"):
                x += list(encode(self.peek())) if of_bytes else [self.peek()]
                self.i += 1
            elif of_bytes and self.at("x", 1):
                h = self.cs[self.i + 2 : self.i + 4]
                need(len(h) == 2 and all(c < 128 and chr(c) in "0123456789abcdefABCDEF" for c in h))
                x.append(int("".join(map(chr, h)), 16))
                self.i += 4
            elif not of_bytes and self.at("u{", 1):
                self.i += 3
                h = self.run(lambda c: True, lambda c: c < 128 and chr(c) in "0123456789abcdefABCDEF")
                need(len(h) <= 6 and scalar(int("".join(map(chr, h)), 16)))
                x.append(int("".join(map(chr, h)), 16))
                self.take("}")
            else:
                v = self.short_escape(self.cs[self.i + 1] if self.i + 1 < len(self.cs) else -1)
                need(v is not None)
                x.append(v)
                self.i += 2
        self.i += 1
        return x

    def fenced(self):
        n = len(self.run(lambda c: c == 0x23, lambda c: c == 0x23))
        self.take('"')
        x = []
        while not self.at('"' + "#" * n):
            need(self.i < len(self.cs))
            x.append(self.peek())
            self.i += 1
        self.take('"' + "#" * n)
        return x

    def items(self, close):
        ts = []
        while True:
            self.skip_blanks()
            if self.at(close):
                break
            ts.append(self.item())
            self.skip_blanks()
            if not self.at(","):
                break
            self.i += 1
        self.take(close)
        return ts

    def named(self, x):
        """A name, or a group behind it."""
        here = self.i
        self.skip_blanks()
        if self.at("("):
            self.i += 1
            return ("a_group", ("named", x), self.items(")"))
        self.i = here
        return ("a_name", x)

    def item(self):
        c = self.peek()
        if self.at('"'):
            self.i += 1
            return ("a_text", self.quoted(False))
        if self.at("r#") and self.after_hashes() == 0x22:
            self.i += 1
            return ("a_text", self.fenced())
        if self.at('b"'):
            self.i += 2
            return ("a_byte_string", self.quoted(True))
        if self.at("br#"):
            self.i += 2
            return ("a_byte_string", list(encodes(self.fenced())))
        if self.at("r#"):
            self.i += 2
            raw = lambda c: raw_char(self.t.continues, c)
            return self.named(self.run(raw, raw))
        if self.at("'"):
            self.i += 1
            if self.at("\\"):
                self.i += 1
                need(self.peek() in (0x27, 0x5C))
            else:
                need(self.i < len(self.cs) and self.peek() != 0x27)
            c = self.peek()
            self.i += 1
            self.take("'")
            return ("a_character", c)
        if self.at("["):
            self.i += 1
            return ("a_list", self.items("]"))
        if self.at("("):
            self.i += 1
            return ("a_group", ("headless",), self.items(")"))
        if digit(c) or c == 0x2D:
            number_char = lambda c: letter(c) or digit(c) or c in (0x2E, 0x2B, 0x2D)
            return ("a_number", self.run(lambda c: True, number_char))
        x = self.run(lambda c: first_char(self.t.starts, c), self.t.continues)
        if x == codes(b"Some"):
            self.skip_blanks()
            self.take("(")
            return ("a_group", ("some_head",), self.items(")"))
        if reserved(x):
            return ("a_word", x)
        return self.named(x)

    def after_hashes(self):
        i = self.i + 1
        while i < len(self.cs) and self.cs[i] == 0x23:
            i += 1
        return self.cs[i] if i < len(self.cs) else -1


def reads(table, text):
    """The tree that a text reads as, or None."""
    if not utf8(text):
        return None
    try:
        return Reader(table, decoded(text)).whole()
    except NoReading:
        return None


# ---------------------------------------------------------------- scripts


class Skip(Exception):
    pass


def read_table(path):
    sets = bytearray(0x110000)
    with open(path) as lines:
        for line in lines:
            a, b, letters = line.split()
            bits = sum({"s": 1, "c": 2, "h": 4}[x] for x in letters)
            for c in range(int(a, 16), int(b, 16) + 1):
                sets[c] = bits
    return Table(lambda c: bool(sets[c] & 1), lambda c: bool(sets[c] & 2), lambda c: bool(sets[c] & 4))


def read_str(word):
    if word.startswith("="):
        return word[1:].encode()
    try:
        return bytes.fromhex(word)
    except ValueError:
        raise Skip("hex")


letters_of = {"U": "unwrap_newtypes", "I": "implicit_some", "E": "explicit_struct_names"}


def read_settings(words):
    v = dict(
        cfg=False, nl=b"\n", ind=b"    ", sep=b" ", dl=2**64 - 1, names=False, sepmem=False, compact=False,
        noesc=False, suffix=False, ext=frozenset(), lim=None, space=2**30,
    )  # fmt: skip
    v["def"] = frozenset()
    for w in words:
        key, eq, arg = w.partition("=")
        if w == "bare":
            v["cfg"] = False
        elif w in ("cfg", "names", "sepmem", "compact", "noesc", "suffix"):
            v[w] = True
        elif eq and key in ("nl", "ind", "sep"):
            v[key] = read_str(arg)
        elif eq and key in ("ext", "def"):
            v[key] = frozenset(letters_of[x] for x in arg)
        elif eq and key == "dl":
            v[key] = 2**64 - 1 if arg == "max" else int(arg)
        elif eq and key == "lim":
            v[key] = None if arg == "none" else int(arg)
        elif eq and key == "space":
            v[key] = 2**30 if arg == "none" else int(arg)
        else:
            raise Skip("setting " + w)
    config = PrettyConfig(
        depth_limit=v["dl"],
        new_line=v["nl"],
        indentor=v["ind"],
        separator=v["sep"],
        struct_names=v["names"],
        separate_tuple_members=v["sepmem"],
        extensions=v["ext"],
        compact_arrays=v["compact"],
        escape_strings=not v["noesc"],
        number_suffixes=v["suffix"],
    )
    return Settings(v["def"], v["lim"], config if v["cfg"] else None), v["space"]


kinds = list(kind_of_name.values())


def read_call(word):
    """A request with its ticket left open (the word `here`), or `show`."""
    key, *a = word.split(":")
    put = lambda *v: ("put", "here", v)
    start = lambda *o: ("start", "here", o)
    if key == "bool":
        return put("a_bool", a[0] == "1")
    if key in ("i8", "i16", "i32", "i64", "u8", "u16", "u32", "u64"):
        return put("an_integer", key, int(a[0]))
    if key in ("f32", "f64"):
        if len(a) < 2:
            raise Skip("a float without text")
        return put("a_float", key.upper(), a[1].encode())
    if key == "char":
        return put("a_char", int(a[0], 16))
    if key == "str":
        return put("a_str", read_str(a[0]))
    if key == "bytes":
        return put("bytes", read_str(a[0]))
    if key in ("none", "unit"):
        return put(key)
    if key == "ustruct":
        return put("unit_struct", read_str(a[0]))
    if key == "uvar":
        return put("unit_variant", read_str(a[0]), read_str(a[1]))
    if key == "some":
        return start("some")
    if key == "ntstruct":
        return start("newtype_struct", read_str(a[0]))
    if key == "ntvar":
        return start("newtype_variant", read_str(a[0]), read_str(a[1]))
    if key == "seq":
        return start("seq", None if a[0] == "?" else int(a[0]))
    if key == "tup":
        return start("tuple", int(a[0]))
    if key == "tstruct":
        return start("tuple_struct", read_str(a[0]), int(a[1]))
    if key == "tvar":
        return start("tuple_variant", read_str(a[0]), read_str(a[1]), int(a[2]))
    if key == "end":
        return ("end", "here")
    if key in ("abandon", "finish"):
        return (key,)
    if key == "show":
        return ("show", None if a[0] == "none" else Ticket(a[0], int(a[1])))
    raise Skip("call " + key)


def read_line(line):
    words = line.split()
    bar = words.index("|")
    settings, space = read_settings(words[:bar])
    return settings, space, [read_call(w) for w in words[bar + 1 :]]


def innermost(s):
    """The ticket of the innermost frame, or None."""
    return Ticket(s.frames[-1].kind, len(s.frames)) if s.frames else None


def shown(requests, state):
    """The requests, each with the ticket that it shows: that of the innermost frame, if no `show` stands before it."""
    show = "here"
    for r in requests:
        if r[0] == "show":
            show = r[1]
            continue
        if len(r) > 1 and r[1] == "here":
            t = innermost(state()) if show == "here" else show
            if r[0] == "end" and t is None:
                t = Ticket("Seq", 0)  # an end has to show a ticket
            r = (r[0], t, *r[2:])
        show = "here"
        yield r


def hexed(text):
    return text.hex() or "-"


def run_line(table, line, check):
    settings, space, requests = read_line(line)
    e = beginning_refusal(settings, space)
    if e is not None:
        return "err %d 0 - -" % number[e]
    s = begun(table, settings, space)
    lens, calls = [len(s.text)], []
    for r in shown([*requests, ("finish",)], lambda: s):
        if check and (refusal(s, ("finish",)) is None) != one_whole_value(style_of(settings), calls):
            raise AssertionError("finish and whole value differ: " + line)
        if r == ("finish",) and check and refusal(s, r) is None:
            tree = made(style_of(settings), calls).top[0]
            if reads(table, s.text) != tree:
                raise AssertionError("another reading: " + line)
        s, a = next_and_answer(s, r)
        if a[0] in ("refused", "handed_back"):
            return "err %d %d %s %s" % (number[a[1]], len(calls), hexed(s.text), ",".join(map(str, lens)))
        if a[0] == "finished":
            least = "-" if a[2] is None else a[2]
            return "ok %s %s %s" % (hexed(s.text), ",".join(map(str, lens)), least)
        calls.append(call_of(r))
        lens.append(len(s.text))


def trace_line(table, line):
    """Every request with its answer, also behind a refusal; then text, state and tree."""
    settings, space, requests = read_line(line)
    e = beginning_refusal(settings, space)
    s = begun(table, settings, space)
    out, calls = ["begin: " + ("done" if e is None else "refused %d %s" % (number[e], e))], []
    for r in shown(requests, lambda: s):
        before_text = s.text
        s, a = next_and_answer(s, r)
        words = [str(number[w]) + " " + w if w in number else str(w) for w in a]
        out.append("  %-60s %s %s" % (str(call_of(r)), " ".join(words), s.text[len(before_text) :] or ""))
        if a[0] not in ("refused", "handed_back"):
            calls.append(call_of(r))
    out.append("  text: " + s.text.decode("utf-8", "replace"))
    out.append("  state: closed %s, frames %s, filled %s, %s, depth %d, %s, space %d" % (
        s.closed, [tuple(f) for f in s.frames], s.filled, s.layout, s.implicit_some_depth, s.allowance, s.space))  # fmt: skip
    out.append("  one whole value: %s" % one_whole_value(style_of(settings), calls))
    return "\n".join(out)


def main():
    args = sys.argv[1:]
    mode = args.pop(0) if args and args[0].startswith("--") else ""
    if len(args) != 1 or mode not in ("", "--trace", "--read"):
        sys.exit(__doc__)
    table = read_table(args[0])
    for line in sys.stdin:
        line = line.rstrip("\n")
        if line == "" or line.startswith("#"):
            continue
        try:
            if mode == "--trace":
                print(line)
                print(trace_line(table, line))
            else:
                print(run_line(table, line, mode == "--read"))
        except Skip as why:
            print("skip", why)


if __name__ == "__main__":
    main()
