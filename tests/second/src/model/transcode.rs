//! The move of a sheet from type 1 to type 9 and back.

use super::sheet::{self, Sheet, Unpacking};
use super::writer::{self, Coding};
use super::{word, Rejection, LONGEST_FILE};

/// How a sheet is moved.
pub struct Manner {
    pub unpacking: Unpacking,
    pub coding: Coding,
    /// The header of a moved sheet, by the one that it had and its new type.
    pub header: fn(&[u8], u16) -> Vec<u8>,
    /// The header of a moved line, by the one that it had and its new body.
    pub line: fn(&[u8], &[u8]) -> Vec<u8>,
    /// Whether lines that start partway are moved too.
    pub offsets_taken: bool,
    /// Whether bytes after the last line are kept.
    pub rest_kept: bool,
}

/// As the papers say.
pub const RIGHT: Manner = Manner {
    unpacking: sheet::RIGHT,
    coding: writer::RIGHT,
    header: |old, kind| with(old, 4, kind),
    // W counts line number and offset besides the body.
    line: |old, body| with(old, 2, (body.len() / 2 + 2) as u16),
    offsets_taken: false,
    rest_kept: false,
};

/// The same bytes but for one word.
pub fn with(old: &[u8], at: usize, word: u16) -> Vec<u8> {
    [&old[..at], &word.to_le_bytes()[..], &old[at + 2..]].concat()
}

/// The moved file's bytes, from the first to the written length.
pub fn transcode(file: &[u8], room: usize) -> Result<Vec<u8>, Rejection> {
    transcode_by(&RIGHT, file, room)
}

/// The same by a mover that may do it in another way.
pub fn transcode_by(by: &Manner, file: &[u8], room: usize) -> Result<Vec<u8>, Rejection> {
    let found = sheet::read_by(&by.unpacking, file, u64::MAX, u64::MAX)?;
    let kind = match found.header.kind {
        1 => 9,
        9 => 1,
        _ => return Err(30),
    };
    if found.answer() != 0 {
        return Err(41);
    }
    if starts_partway(file, &found) && !by.offsets_taken {
        return Err(42);
    }
    let bodies: Vec<Vec<u8>> = found
        .lines
        .iter()
        .map(|line| {
            let row: Vec<u16> = line.row.iter().map(|&pixel| pixel as u16).collect();
            writer::body(&by.coding, kind.into(), found.header.scn as u32, &row)
        })
        .collect();
    if found.header.scn == 1 && bodies.iter().any(|body| writer::is_too_long(body)) {
        return Err(27);
    }
    let mut moved = (by.header)(&file[..found.header.size()], kind);
    for (line, body) in found.lines.iter().zip(bodies) {
        // A line's header is the eight bytes before its body.
        if let Some(old) = &line.body {
            moved.extend((by.line)(&file[old.start - 8..old.start], &body));
        }
        moved.extend(body);
    }
    if by.rest_kept {
        moved.extend(&file[found.end..]);
    }
    if moved.len() as u64 > LONGEST_FILE {
        return Err(10);
    }
    if room < moved.len() {
        return Err(28);
    }
    Ok(moved)
}

/// Whether some line has an offset that is not 0, the last word of its header.
pub fn starts_partway(file: &[u8], found: &Sheet) -> bool {
    let mut bodies = found.lines.iter().filter_map(|line| line.body.as_ref());
    bodies.any(|body| word(file, body.start - 2) > 0)
}
