//! Compares this driver's results with another program's, line by line.

use std::{
    fs,
    io::{self, BufRead, BufReader, Write},
};

use crate::script::{read_line, Call};

/// How two results of a line stand to each other.
#[derive(Clone, Copy, PartialEq, Eq)]
enum Verdict {
    Same,
    /// One of the two programs does not take the line.
    Skipped,
    /// The same call is refused with 19 by one and 6 or 16 by the other.
    Number,
    /// The other program refuses with 16 a call that stands in more frames than
    /// the limit, where ron goes on because ends have raised its allowance.
    Limit,
    Different,
}

/// Prints the lines that differ and the counts; true if no line differs.
pub fn print(out: &mut impl Write, paths: [&str; 3]) -> io::Result<bool> {
    let [script, ours, theirs] = paths;
    let mut ours = lines(ours)?;
    let mut theirs = lines(theirs)?;
    let mut counts = [0u64; 5];
    for (at, line) in lines(script)?.enumerate() {
        let line = line?;
        if line.is_empty() || line.starts_with(b"#") {
            continue;
        }
        let our = ours.next().transpose()?.ok_or_else(too_few)?;
        let their = theirs.next().transpose()?.ok_or_else(too_few)?;
        let [line, our, their] =
            [line, our, their].map(|text| String::from_utf8_lossy(&text).into_owned());
        let verdict = verdict(&line, &our, &their);
        counts[verdict as usize] += 1;
        if verdict == Verdict::Different {
            writeln!(
                out,
                "line {}: {line}\n  ron:   {our}\n  other: {their}",
                at + 1
            )?;
        }
    }
    if ours.next().is_some() || theirs.next().is_some() {
        return Err(io::Error::other("more results than script lines"));
    }
    let [same, skipped, number, limit, different] = counts;
    writeln!(
        out,
        "same {same}, skipped {skipped}, number open {number}, \
         limit raised {limit}, different {different}"
    )?;
    Ok(different == 0)
}

fn too_few() -> io::Error {
    io::Error::other("fewer results than script lines")
}

fn lines(path: &str) -> io::Result<impl Iterator<Item = io::Result<Vec<u8>>>> {
    let file = fs::File::open(path)
        .map_err(|error| io::Error::new(error.kind(), format!("{path}: {error}")))?;
    Ok(BufReader::new(file).split(b'\n'))
}

fn verdict(line: &str, ours: &str, theirs: &str) -> Verdict {
    let our: Vec<&str> = ours.split(' ').collect();
    let their: Vec<&str> = theirs.split(' ').collect();
    match (our.as_slice(), their.as_slice()) {
        (["skip", ..], _) | (_, ["skip", ..]) => Verdict::Skipped,
        _ if ours == theirs => Verdict::Same,
        (["err", a, rest @ ..], ["err", b, others @ ..])
            if rest == others && matches!((*a, *b), ("19", "6" | "16") | ("6" | "16", "19")) =>
        {
            Verdict::Number
        }
        (["ok", text, lens, _] | ["err", _, _, text, lens], ["err", "16", at, cut, early])
            if begins(lens, early, ',')
                && (*cut == "-" || text.starts_with(cut))
                && at.parse().is_ok_and(|at| is_raised(line, at)) =>
        {
            Verdict::Limit
        }
        _ => Verdict::Different,
    }
}

/// The list `all` begins with the members of `front`.
fn begins(all: &str, front: &str, mark: char) -> bool {
    let mut all = all.split(mark);
    front.split(mark).all(|member| all.next() == Some(member))
}

/// The call at this place stands in more frames than the limit, after the end
/// of a sequence or tuple kind.
fn is_raised(line: &str, at: usize) -> bool {
    let Ok((settings, calls)) = read_line(line) else {
        return false;
    };
    let (Some(limit), Some(before)) = (settings.recursion_limit, calls.get(..at)) else {
        return false;
    };
    let mut frames = Vec::new();
    let mut raised = false;
    for call in before {
        match call {
            Call::End => raised |= frames.pop().is_some_and(|call: &Call| !call.holds_one()),
            call if call.opens() => frames.push(call),
            _ => {}
        }
    }
    raised && frames.len() > limit
}
