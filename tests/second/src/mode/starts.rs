//! In which columns lines started, and what became of them, for the counts.

use crate::gen::sheet::TYPES;
use std::collections::BTreeSet;

/// What became of the lines of a sheet that start at either end of their rows, or past it. A line
/// is its offset and its mark; none is counted that has no offset or is lost.
pub fn reached(kind: u64, ppl: u64, lines: impl Iterator<Item = (u64, u8)>) -> Vec<String> {
    // In narrower rows several of these are one.
    if ppl < 3 {
        return Vec::new();
    }
    let columns =
        [("1", 1), ("P - 1", ppl - 1), ("P", ppl), ("P + 1", ppl + 1), ("65,535", 65_535)];
    let mut seen = BTreeSet::new();
    for (offset, mark) in lines.filter(|(_, mark)| matches!(mark, 0 | 4..=8 | 10)) {
        let names = columns.iter().filter(|column| column.1 == offset);
        seen.extend(names.map(|(name, _)| (*name, mark)));
    }
    seen.iter().map(|(name, mark)| told(kind, name, *mark)).collect()
}

fn told(kind: u64, name: &str, mark: u8) -> String {
    format!("type {kind} offset {name} mark {mark}")
}

/// Lines of every type with every mark that each column allows.
pub fn all() -> Vec<String> {
    [
        marked(&TYPES, &INSIDE, &[0, 4, 6]),
        marked(&TYPES, &["P + 1", "65,535"], &[4, 5]),
        marked(&[9, 10], &INSIDE, &[7]),
        // No word of no pixels has bits to spare.
        marked(&[1], &INSIDE[..2], &[10]),
        // No total is below 0.
        marked(&[9, 10], &INSIDE[..2], &[8]),
    ]
    .concat()
}

/// Where good lines may start.
const INSIDE: [&str; 3] = ["1", "P - 1", "P"];

fn marked(kinds: &[u16], names: &[&str], marks: &[u8]) -> Vec<String> {
    let mut all = Vec::new();
    for &kind in kinds {
        for name in names {
            all.extend(marks.iter().map(|&mark| told(kind.into(), name, mark)));
        }
    }
    all
}
