//! Readers, writers and movers that number lines past 65,535 wrongly, for the stand-ins of the C
//! functions. All but what is wrong is the model's.

use crate::gen::put;
use crate::model::c::{self, Write};
use crate::model::sheet::{self, Line, Sheet};
use crate::model::transcode::with;
use crate::model::{long, word};

/// What a reader may go by: the lines as they were read, and what is stored in them.
pub struct Seen<'a> {
    file: &'a [u8],
    lines: &'a [Line],
}

impl Seen<'_> {
    /// The number stored in line `k`, if it has a body.
    fn number(&self, k: usize) -> Option<u64> {
        let body = self.lines.get(k - 1)?.body.as_ref()?;
        Some(word(self.file, body.start - 4))
    }

    /// Whether the number that is stored in a line makes every roll go to 1.
    fn decides(&self, k: usize) -> bool {
        self.number(k) == Some(1)
    }
}

/// The number that line `k` must have, by that of the line before it; none is any.
pub type Rule = fn(k: usize, before: u64, seen: &Seen) -> Option<u64>;

/// Reads the lines of a sheet once more, by another rule for their numbers.
pub fn misnumber(file: &[u8], sheet: &mut Sheet, rule: Rule) {
    let (kind, ppl) = (sheet.header.kind, sheet.header.ppl as usize);
    let lines = sheet.lines.clone();
    let seen = Seen { file, lines: &lines };
    let mut before = 0;
    for (i, line) in sheet.lines.iter_mut().enumerate() {
        let Some(body) = line.body.clone().filter(|_| line.mark != 1) else {
            continue;
        };
        let stored = word(file, body.start - 4);
        let wanted = rule(i + 1, before, &seen);
        before = wanted.unwrap_or(stored);
        let own = &file[body.start - 8..body.end];
        (line.mark, line.row) = sheet::line_alone(own, kind, ppl, before);
    }
}

fn to_0(k: usize) -> u64 {
    k as u64 % 65_536
}

fn to_1(k: usize) -> u64 {
    (k as u64 - 1) % 65_535 + 1
}

fn by(roll_to_1: bool, k: usize) -> Option<u64> {
    Some(if roll_to_1 { to_1(k) } else { to_0(k) })
}

pub const ALWAYS_TO_0: Rule = |k, _, _| Some(to_0(k));

pub const ALWAYS_TO_1: Rule = |k, _, _| Some(to_1(k));

/// A count that never rolls, as one of 32 bits.
pub const NEVER: Rule = |k, _, _| Some(k as u64);

/// No number looked at past 65,535.
pub const UNSEEN: Rule = |k, _, _| (k <= 65_535).then_some(k as u64);

/// The second roll to 0, though the first went to 1.
pub const SECOND_TO_0: Rule = |k, _, seen| match k {
    131_071.. if seen.decides(65_536) => Some(to_0(k - 65_535)),
    _ => by(seen.decides(65_536), k),
};

/// The second roll to 0 a line early, where a roll to 1 would be.
pub const SECOND_EARLY: Rule = |k, _, seen| match k {
    131_071.. if !seen.decides(65_536) => Some(to_0(k - 65_535)),
    _ => by(seen.decides(65_536), k),
};

pub const DECIDED_BEFORE: Rule = |k, _, seen| by(seen.decides(65_535), k);

pub const DECIDED_AFTER: Rule = |k, _, seen| by(seen.decides(65_537), k);

/// Each roll by the line that it comes to.
pub const DECIDED_ANEW: Rule = |k, before, seen| {
    Some(match before {
        65_535 => u64::from(seen.decides(k)),
        _ => before + 1,
    })
};

/// Any number but 0 taken for a roll to 1.
pub const NEITHER_TO_1: Rule = |k, _, seen| by(seen.number(65_536) != Some(0), k);

/// A line that is refused for something else does not decide.
pub const ONLY_GOOD_DECIDES: Rule = |k, _, seen| {
    let good = seen.lines.get(65_535).is_some_and(|line| line.mark == 0);
    by(good && seen.decides(65_536), k)
};

/// The body's first word taken for the number that decides.
pub const BODY_DECIDES: Rule = |k, _, seen| {
    let body = seen.lines.get(65_535).and_then(|line| line.body.clone());
    by(body.is_some_and(|body| body.len() >= 2 && word(seen.file, body.start) == 1), k)
};

/// Gives each line with a header its number.
fn renumber(file: &mut [u8], number: fn(usize) -> u64) {
    let mut at = 2 * (word(file, 2) as usize + 2);
    let lines = if file[195] == 1 { long(file, 188) as usize } else { 0 };
    for k in 1..=lines {
        let next = at + 4 + 2 * word(file, at + 2) as usize;
        put(file, at + 4, &(number(k) as u16).to_le_bytes());
        at = next;
    }
}

pub fn writes_to_1(given: &Write, out: &mut [u8], answer: &mut [u8]) -> u32 {
    let result = c::write(given, out, answer);
    if result == 0 {
        renumber(&mut out[..long(answer, 0) as usize], to_1);
    }
    result
}

/// The lines of a moved sheet numbered as the writer does it.
pub fn moves_anew(file: &[u8], out: &mut [u8], answer: &mut [u8]) -> u32 {
    let result = c::transcode(file, out, answer);
    if result == 0 {
        renumber(&mut out[..long(answer, 0) as usize], to_0);
    }
    result
}

/// Sheets that roll to 1 taken for damaged.
pub fn moves_to_0(file: &[u8], out: &mut [u8], answer: &mut [u8]) -> u32 {
    let found = sheet::read(file, u64::MAX, u64::MAX);
    let body = found.ok().and_then(|found| found.lines.get(65_535)?.body.clone());
    match body.filter(|body| word(file, body.start - 4) == 1) {
        // As any other number there is.
        Some(body) => c::transcode(&with(file, body.start - 4, 2), out, answer),
        None => c::transcode(file, out, answer),
    }
}

/// Sheets moved whatever numbers their lines have past 65,535.
pub fn moves_unseen(file: &[u8], out: &mut [u8], answer: &mut [u8]) -> u32 {
    let found = match sheet::read(file, u64::MAX, u64::MAX) {
        Ok(found) if found.lines.len() > 65_535 && found.answer() == 1 => found,
        _ => return c::transcode(file, out, answer),
    };
    let mut right = file.to_vec();
    for (line, k) in found.lines.iter().zip(1..).skip(65_535).filter(|(line, _)| line.mark != 1) {
        if let Some(body) = &line.body {
            put(&mut right, body.start - 4, &(to_0(k) as u16).to_le_bytes());
        }
    }
    c::transcode(&right, out, answer)
}
