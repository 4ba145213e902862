//! The character table: which scalar values start a name, continue one, and
//! stand for themselves in escaped text.

use std::io::{self, Write};

use unicode_ident::{is_xid_continue, is_xid_start};

fn shown(c: char) -> bool {
    // These three are escaped for their own sake, not because they do not show.
    matches!(c, '"' | '\'' | '\\') || c.escape_debug().eq([c])
}

fn sets(c: char) -> String {
    [
        (is_xid_start(c), 's'),
        (is_xid_continue(c), 'c'),
        (shown(c), 'h'),
    ]
    .iter()
    .filter(|(member, _)| *member)
    .map(|(_, letter)| letter)
    .collect()
}

/// The ranges: first, last and the letters of their sets.
pub fn ranges() -> Vec<(u32, u32, String)> {
    let mut ranges: Vec<(u32, u32, String)> = Vec::new();
    for c in '\0'..=char::MAX {
        let (at, sets) = (u32::from(c), sets(c));
        match ranges.last_mut() {
            Some((_, last, same)) if *last + 1 == at && *same == sets => *last = at,
            _ => ranges.push((at, at, sets)),
        }
    }
    ranges.retain(|(_, _, sets)| !sets.is_empty());
    ranges
}

pub fn print(out: &mut impl Write) -> io::Result<()> {
    for (first, last, sets) in ranges() {
        writeln!(out, "{first:x} {last:x} {sets}")?;
    }
    Ok(())
}
